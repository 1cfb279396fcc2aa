#!/bin/bash
# Lists the places that docs/DESIGN-PASS.md counts, point by point, in a commit (or in the files as they are, without one).
# tools/places.sh [COMMIT] prints each line; tools/places.sh -c [COMMIT] prints how many there are of each point.
count=; [ "$1" = -c ] && { count=1; shift; }
commit=$1
cd "$(dirname "$0")/.." || exit 1

look() { # point, what, pattern
    local lines
    lines=$(git grep -nE "$3" ${commit:+"$commit"} -- 'crates/*/src/*.rt')
    [ -n "$count" ] && { printf '%-3s %3d  %s\n' "$1" "$(printf '%s' "$lines" | grep -c .)" "$2"; return; }
    printf '== %s %s\n%s\n' "$1" "$2" "$lines"
}

look 1 "enums, and answers that are a flag, a count or a number of a kind" \
    '^(pub )?enum |fn [a-z_]+\(.*\) -> (bool|Option<usize>|u8)$|=> (9|0xffff_ffff),|return 9;'
look 2 "structs, and functions that read, make or move one thing" \
    '^(pub )?struct |fn (of_[a-z]+|turn_[a-z]+|[a-z]+_slot|greater|lesser|ask|perform)\b'
look 3 "loops, and recursions over an index or a count" \
    '^ *(for|while) |, [in] [-+] 1\)|\[[in] \+ 1\]'
look 4 "impls of std's traits, and conversions and comparisons by hand" \
    '^impl.* (PartialEq|Display|From<.*>|TryFrom<.*>) for|fn (of_[a-z]+|parse|refusal|number|root|nowhere)\(|\.number (==|<) '
look 5 "clauses that repeat a fact" \
    'requires .*(rises|sound|has) |requires \{ [^}]*sound|ensures (sound|same|has) '
look 6 "slices with a length beside them, and searches of sorted slots" \
    '(slots|text): &.*(len|rest|last|i|n): usize|slots: &\[Slot\]|^    pub len: usize|\[0\.\.len\]'
look 7 "switches on a step or a request" \
    'match (op|request|n) \{|=> match '
