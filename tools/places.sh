#!/bin/bash
# Lists the places in src/ that the design pass looks at, point by point.
# usage: bash tools/places.sh [COMMIT]     (by default what is checked out)
# Tests' tables and the asserts on them are left out: a test that names a number names the number that is due.
cd "$(dirname "$0")/.." || exit 1
rev=${1:-}
rust=(-- 'crates/*/src/*.rt')
code=(-- 'crates/*/src/*.rt' ':!crates/*_cases/*')

seek() {
    git grep -nE "$1" $rev "${@:2}" | sed "s/^$rev://; s/^crates\///"
}

part() {
    echo
    echo "== $1"
}

part "1, own enums"
seek '^(pub(\(crate\))? )?enum ' "${code[@]}"
part "1, flags in structs"
seek '^\s+(pub )?\w+: bool,' "${code[@]}"
part "1, numbers for sides, marks, kinds of line, actions"
seek '\b(side|mark|kind|action): u8|fn side\(.*-> u8|^(pub )?const (NONE|MEMORY|OVERFLOW|\w+_LINE): u8|_in\(line, [0-9]\)' "${code[@]}"
part "1, answers taken apart by hand, where Option and Result have a method"
seek 'None => (0|None|Record|return)|Err\(_\) =>|Ok\(\(\)\) => 0' "${rust[@]}"

part "2, functions of one name (twins are among them)"
git grep -hoE '\bfn \w+' $rev "${code[@]}" | sort | uniq -c | sort -rn | awk '$1 > 1'

part "3, loops"
seek '^\s*(for .* in|while|loop)\b' "${code[@]}" | grep -v 'boardgen/src/generate.rt'
part "3, counters moved by hand"
seek '^\s*(total|place|first|low|next|rest|at)\b.* (\+=|-=|=) ' "${code[@]}"

part "4, conversions between enums and numbers"
seek 'fn (read_|of\b|number\(&self\))|impl.*(From|TryFrom|Display|Default|PartialOrd|Ord)\b' "${code[@]}"
part "4, casts"
seek ' as (u8|u16|u32|u64|usize)\b' "${rust[@]}"
part "4, orders written out"
seek '\(Kind::|self\.rank\(x\) <=|match \(self\.' "${code[@]}"

part "5, requires"
seek '^\s+requires' "${code[@]}"
part "5, pairs of parameters"
git grep -hoE '(limits: &\[u16; COUNTERS\]|out: &mut \[u8\], at: usize|number: u16|position: u16, out|lines: &mut Lines, count|records: &mut \[Record\]|state: PoolState|board: &B, watcher)' $rev "${code[@]}" | sort | uniq -c | sort -rn

part "6, places and lengths kept as numbers"
seek '^\s+(pub )?(first|count|states|taken|at|length|len): (u8|u16|usize),' "${code[@]}"

part "7, matches on what to do"
seek '^\s*(let .*= )?match ' "${code[@]}" | grep -v 'boardgen/src/generate.rt'

part "8, answers, invariants and lemmas"
echo "answers: $(git grep -hE '^pub ' $rev -- ':(glob)crates/*/proofs/**/Answers.antt' | wc -l) in $(git grep -lE '^pub ' $rev -- ':(glob)crates/*/proofs/**/Answers.antt' | wc -l) files"
echo "lines of answers and invariants: $(git grep -h '' $rev -- ':(glob)crates/*/proofs/**/Answers.antt' ':(glob)crates/*/proofs/**/Invariants.antt' | wc -l)"
echo "lines of lemmas in proofs/: $(git grep -h '' $rev -- 'crates/*/proofs/*.antt' ':(exclude,glob)crates/*/proofs/**/Answers.antt' ':(exclude,glob)crates/*/proofs/**/Invariants.antt' | wc -l)"
echo "lines of specs/: $(git grep -h '' $rev -- 'crates/*/specs/*.antt' | wc -l)"
