#!/bin/sh
# The places of docs/DESIGN-PASS.md in src/, point by point: `tools/places.sh` lists them, `tools/places.sh count` counts them. Run it at the top
# of a checkout; of another commit, in a worktree of it.
list() {
    case $1 in
    1a) grep -rnE '^ *(pub(\(crate\))? )?enum ' crates/*/src ;;
    1b) grep -rnE '^ +(pub )?[a-z_]+: bool,$' crates/*/src ;;
    1c) grep -rnE 'kind: usize|number: usize|side: (usize|u8)|given: u8|other: u8|(refused|stop)\([0-9]|number: [0-9]+,|part: usize' crates/*/src ;;
    2) grep -rnE 'fn (refused|stop)\(number|fn (checked|number)\(|fn (open|solve)_gate\(|fn (map|model)_bytes\(|fn hand_(map|model)\(|fn of_[a-z]+\(|fn put_(model|none|refused)\(|fn (take|read)_number\(|fn (atom|weight)_(at|there)\(|fn (need|heads|positives|negatives|end)_at\(|(FEW|SOME|MANY|LARGE)_(BYTES|WORDS): usize' crates/*/src ;;
    3) grep -rnE '^ *(while |loop |let [a-z_]+ = .*loop )' crates/*/src ;;
    4) grep -rnE 'fn (is_[a-z]+|either|lesser|wide|widened|size|one_more|meets[a-z_]*|join|say[a-z_]*|spanned|put_number|last_digit|raised|digit)\b' crates/*/src ;;
    5a) grep -rnE '(requires|ensures)( [a-z_]+)? \{.*×' crates/*/src ;;
    5b) grep -rnE 'code: &\[u32\], n: u32' crates/*/src ;;
    6) grep -rnE '^ +(pub )?len: usize|[(, ]len: usize|(slots|links): &mut \[u16\]|code: &mut \[u32\],( from| j| i)?' crates/*/src ;;
    7) grep -rnE 'fn .*: bool[,)]|match (task|ask|part) ' crates/*/src ;;
    8) find crates/*/proofs -name Answers.antt -o -name Invariants.antt | sort ;;
    esac
}
for p in 1a 1b 1c 2 3 4 5a 5b 6 7 8; do
    if [ "$1" = count ]; then
        echo "$p: $(list $p | wc -l)"
    else
        list $p | sed "s/^/$p: /"
    fi
done
