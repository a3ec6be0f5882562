#!/bin/sh
# Lists the places that docs/DESIGN-PASS.md counts in the src/ folders of this tree, or of the tree ROOT, point by point.
# A line is a place to look at, not a verdict.
# usage: sh tools/places.sh [ROOT]
set -eu
cd "${1:-$(dirname "$0")/..}"

# list TITLE PATTERN: the lines of src/ that match
list() {
    echo "== $1"
    grep -nE "$2" crates/*/src/*.rt || true
}

list "1 own enums" '^(pub(\([a-z]+\))? )?enum '
list "1 numbers for a kind, a kernel or a side" '\b(kernel|kind|side) *(==|!=) *[0-9]|^ *[0-9] => self\.pair|^ +(pub(\([a-z]+\))? )?(kernel|kind): u8,$|Code\(u8'
list "1 answers that stand for none" '(None|Err\(_\)|Ok\(_\)) => (\(0|""|.*zero\(\))'

echo "== 2 names of functions and types declared more than once outside of traits' methods and tests"
grep -oE '^ *(pub(\([a-z]+\))? )?(fn|struct|enum) [A-Za-z_]+' crates/*/src/*.rt | grep -v 'crates/worked' |
    sed -E 's/^crates\/([a-z_]+)\/src\/([a-z_]+)\.rt: *(pub(\([a-z]+\))? )?/\1 \2 /' |
    awk '{ k = $3 " " $4; n[k]++; w[k] = w[k] " " $1 "/" $2 } END { for (k in n) if (n[k] > 1) print n[k], k ":" w[k] }' | sort -rn
list "2 functions that call one function and differ in what they hand it" '^fn [a-z_]+.*\{ [a-z_]+\(.*\) \}$'

list "3 loops over an index, and counters" '\bfor _?[a-z]+ in [^{]*\.\.|\bwhile\b|\bloop\b|\+= '
list "3 loops that answer whether, which or what remains" '^ +for [^{]*(iter\(\)\.enumerate\(\)|in bytes|in stages) \{'

list "4 casts" '\bas (u8|u16|u32|u64|u128|usize|i64|i128)\b'
list "4 conversions, tests and texts by name" 'fn (from_byte|byte|answer_[a-z]+|kind_name|may_[a-z]+|[a-z_]*_text|two_words|one_word|refusal_with|line_with|side_name|tell|number)\b'

echo "== 5 clauses that stand three times or more"
grep -hoE '(requires|ensures)( [a-z]+)? \{ .* \}' crates/*/src/*.rt | sort | uniq -c | awk '$1 > 2' | sort -rn
echo "== 5 neighbours among parameters that stand three times or more"
tr '\n' ' ' <<END_OF_SOURCES | sed -E 's/, *\)/)/g; s/ +/ /g' | grep -oE 'fn [a-z_]+(<[^>]*>)?\([^)]*\)' | sed -E 's/fn [^(]*\(//; s/\)$//' |
$(cat crates/*/src/*.rt)
END_OF_SOURCES
    awk -F', ' '{ for (i = 1; i < NF; i++) if ($i !~ /self|heap|rt:/) print $i ", " $(i + 1) }' | sort | uniq -c | awk '$1 > 2' | sort -rn
list "5 calls for a fact alone" 'let _[a-z]* = .*\.span\(\)'

list "6 arrays of fixed length in fields, parameters and results" '(: |<|-> |\()\[[^]]*; [A-Z0-9a-z]+\]'

list "7 switches on which step to run" 'match (call|phase|[a-z.]*kind|self\.phase) \{'
list "7 tables of functions, pointers and boxes" '\bfn\(|dyn |Box<'

echo "== 8 proofs: lines, answers, lemma files of each crate"
for crate in $(sed -n 's/^\([a-z_]*\):.*/\1/p' crates.txt); do
    [ -d "crates/$crate/proofs" ] || continue
    lines=$(find "crates/$crate/proofs" -name '*.antt' -exec cat {} + | wc -l)
    answers=$(find "crates/$crate/proofs" -name Answers.antt -exec cat {} + | grep -c '^pub [a-z_0-9-]* *:' || true)
    lemmas=$(find "crates/$crate/proofs" -maxdepth 1 -name '*.antt' ! -name Lib.antt | wc -l)
    echo "$crate $lines lines, $answers answers, $lemmas lemma files"
done
