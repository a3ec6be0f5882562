#!/bin/sh
# Runs the program codes on a table of cases: tests/codes-cli.sh PATH-OF-codes
name=codes
. "$(dirname "$0")/cli.sh"

# run WORDS: they hold no blank, so the shell may cut them apart
run() {
    run_with $1
}

# sheet WORDS SPAN ENERGY A B
sheet() {
    run "$1"
    quiet "$1" 0
    prints "$1" "span $2
energy $3
A $4
B $5"
}

# size WORDS SPAN ENERGY: the first two lines, and that there are four
size() {
    run "$1"
    quiet "$1" 0
    [ "$(wc -l <"$dir/out")" -eq 4 ] || differs "$1" "not four lines"
    head -n 2 "$dir/out" >"$dir/head"
    mv "$dir/head" "$dir/out"
    prints "$1" "span $2
energy $3"
}

# refused WORDS NUMBER PLACE
refused() {
    run "$1"
    quiet "$1" 1
    prints "$1" "refused $2 layer 2 place $3"
}

# no_key WORDS: nothing on standard output, one usage line on standard error
no_key() {
    run "$1"
    fails "$1" 'usage: codes '
}

sheet "hall 1" 1 2 "1" "1"
sheet "hall 1 1:0" 2 4 "1 1" "1 -1"
sheet "hall 1 1:0 2:0" 4 8 "1 1 1 -1" "1 1 -1 1"
sheet "hall 1 1:1 2:0" 4 8 "-1 1 -1 -1" "-1 1 1 1"
sheet "radio 1 1:1 2:0" 4 8 "0,1 1,0 0,1 -1,0" "0,1 1,0 0,-1 1,0"
size "hall 10 80:0 10:1 40:0 20:1" 160 320

refused "hall 2" 1 0
refused "hall 300" 1 0
refused "hall 10 10:0 20:0 40:0 80:0 160:0" 2 0
refused "hall 1 1:0 2:0 4:0 8:0 16:0 32:0 64:0 128:0" 2 0
refused "hall 1 2:0" 3 0
refused "hall 1 300:0" 3 0
refused "hall 1 1:2" 4 0
refused "hall 1 1:300" 4 0
refused "hall 1 1:0 2:2" 4 1
refused "radio 1 1:4" 4 0

no_key ""
no_key "hall"
no_key "organ 1"
no_key "hall x"
no_key "hall -1"
no_key "hall 1 1"
no_key "hall 1 1:"
no_key "hall 1 1:0:0"

echo "codes: $cases cases ok"
