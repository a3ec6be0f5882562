#!/bin/sh
# Runs the program replay on a table of cases: tests/replay-cli.sh PATH-OF-replay
name=replay
here=$(dirname "$0")
. "$here/cli.sh"

# run: gives the script in $dir/in to the program
run() {
    run_with <"$dir/in"
}

# answers NAME LINES: the lines with their answers; without them they are the script
answers() {
    printf '%s\n' "$2" | sed 's/ = .*//' >"$dir/in"
    run
    quiet "$1" 0
    prints "$1" "$2"
}

# refused LINE NUMBER PLACE: what follows a refused key is not read
refused() {
    printf '%s\nno call\n' "$1" >"$dir/in"
    run
    quiet "$1" 1
    prints "$1" "$1 = refused $2 layer 2 place $3"
}

# no_key LINE
no_key() {
    printf '%s\nopen 1\n' "$1" >"$dir/in"
    run
    fails "$1" "replay: line 1: expected key "
}

# no_call LINE: a bad line in the midst of good ones
no_call() {
    printf 'key hall 1\nopen 1\n%s\nturn\nhum\n' "$1" >"$dir/in"
    run
    fails "$1" "replay: line 3: expected open N, "
}

cp "$here/../examples/hall-room.script" "$dir/in"
run
quiet "the example" 0
prints "the example" "key hall 1 1:0
open 2 = ok
close = refused 6 layer 3 place 1
sample 3 0 = ok
sample 2 0 = ok
sample -1 0 = ok
sample 7 0 = refused 9 layer 3 place 3
turn = ok
sample 3 0 = ok
sample -4 0 = ok
sample 1 0 = ok
close = ok
sum 0 = 12 0
sum 1 = -4 0
tap 0 = 3 0
tap 1 = -1 0
tap 2 = refused 11 layer 3 place 2
code 2 0 = refused 11 layer 3 place 0"

answers "a key alone" "key hall 1"

answers "radio, no stage" "key radio 1
open 1 = ok
sample 2 -5 = ok
turn = ok
sample 2 -5 = ok
close = ok
sum 0 = 4 -10
tap 0 = 2 -5"

answers "hall, one stage, room length 1" "key hall 1 1:0
open 1 = ok
sample 3 0 = ok
sample 2 0 = ok
turn = ok
sample 3 0 = ok
sample -4 0 = ok
close = ok
sum 0 = 12 0
tap 0 = 3 0"

answers "the codes of radio" "key radio 1 1:1
code 0 0 = 0 1
code 0 1 = 1 0
code 1 0 = 0 1
code 1 1 = -1 0"

answers "5, the room length" "key hall 1
open 0 = refused 5 layer 3 place 0
open 257 = refused 5 layer 3 place 0
open 99999999999999999999999 = refused 5 layer 3 place 0
open 256 = ok"

answers "6, calls that are not allowed in the phase" "key hall 1
sample 1 0 = refused 6 layer 3 place 0
turn = refused 6 layer 3 place 0
close = refused 6 layer 3 place 0
sum 0 = refused 6 layer 3 place 0
tap 0 = refused 6 layer 3 place 0
abandon = ok
open 1 = ok
open 1 = refused 6 layer 3 place 1
close = refused 6 layer 3 place 1
tap 0 = refused 6 layer 3 place 1
sample 1 0 = ok
turn = ok
open 1 = refused 6 layer 3 place 2
turn = refused 6 layer 3 place 2
sum 0 = refused 6 layer 3 place 2
sample 1 0 = ok
close = ok
sample 1 0 = refused 6 layer 3 place 3
turn = refused 6 layer 3 place 3
close = refused 6 layer 3 place 3
tap 0 = 1 0
open 1 = ok
abandon = ok
turn = refused 6 layer 3 place 0"

answers "7 and 8, samples" "key hall 1
open 2 = ok
sample 5 1 = refused 7 layer 3 place 0
sample 32768 0 = refused 8 layer 3 place 0
sample 32767 0 = ok
sample -32768 0 = refused 8 layer 3 place 1
sample 9223372036854775807 0 = refused 8 layer 3 place 1
sample -9223372036854775808 0 = refused 8 layer 3 place 1
sample 0 -1 = refused 7 layer 3 place 1
sample -32767 0 = ok"

answers "9 and 10, full records and others" "key hall 1 1:0
open 1 = ok
turn = refused 10 layer 3 place 0
sample 1 0 = ok
turn = refused 10 layer 3 place 1
sample 1 0 = ok
sample 1 0 = refused 9 layer 3 place 2
sample 1 1 = refused 9 layer 3 place 2
turn = ok
close = refused 10 layer 3 place 0
sample 1 0 = ok
close = refused 10 layer 3 place 1
sample -1 0 = ok
sample 1 0 = refused 9 layer 3 place 2
close = ok"

answers "11, indices" "key hall 1 1:0
code 0 1 = 1 0
code 1 1 = -1 0
code 2 0 = refused 11 layer 3 place 0
code 999 1 = refused 11 layer 3 place 1
code 0 2 = refused 11 layer 3 place 2
code 0 99 = refused 11 layer 3 place 99
code 1 99999999999999999999999 = refused 11 layer 3 place 18446744073709551615
open 1 = ok
sample 0 0 = ok
sample 0 0 = ok
turn = ok
sample 0 0 = ok
sample 0 0 = ok
close = ok
sum 0 = 0 0
sum 1 = refused 11 layer 3 place 1
sum 9 = refused 11 layer 3 place 9
tap 9 = refused 11 layer 3 place 9"

# Blanks are made single, and numbers stay as they are written.
printf ' key   hall\t1 \r\n\topen  007\r\nsample -0   00 \n' >"$dir/in"
run
quiet "blanks" 0
prints "blanks" "key hall 1
open 007 = ok
sample -0 00 = ok"

# A last line without its end is a line.
printf 'key hall 1\nopen 1' >"$dir/in"
run
quiet "no end of line" 0
prints "no end of line" "key hall 1
open 1 = ok"

refused "key hall 2" 1 0
refused "key hall 300" 1 0
refused "key hall 10 10:0 20:0 40:0 80:0 160:0" 2 0
refused "key hall 1 2:0" 3 0
refused "key hall 1 1:0 2:2" 4 1
refused "key radio 1 1:4" 4 0

: >"$dir/in"
run
fails "empty input" "replay: line 1: expected key "

no_key ""
no_key "open 1"
no_key "hall 1"
no_key "key"
no_key "key hall"
no_key "key organ 1"
no_key "Key hall 1"
no_key "key hall x"
no_key "key hall -1"
no_key "key hall 1 1"
no_key "key hall 1 1:0:0"

no_call ""
no_call "  "
no_call "hum"
no_call "key hall 1"
no_call "Open 1"
no_call "open"
no_call "open 1 2"
no_call "open -1"
no_call "open +1"
no_call "open 1x"
no_call "sample 1"
no_call "sample 1 2 3"
no_call "sample 1 +2"
no_call "sample 1 -"
no_call "sample --1 0"
no_call "sample 9223372036854775808 0"
no_call "sample 0 -9223372036854775809"
no_call "turn 1"
no_call "close 0"
no_call "abandon it"
no_call "code 0"
no_call "code A 0"
no_call "code 0 0 0"
no_call "sum"
no_call "tap -1"
no_call "tap 0 0"

# A line that is no text, an input that can't be read, and an output that can't be written.
printf 'key hall 1\nopen \377\n' >"$dir/in"
run
fails "no text" "replay: "
rm "$dir/in"
mkdir "$dir/in"
run
fails "a folder" "replay: "
rmdir "$dir/in"
status=0
printf 'key hall 1\n' | "$program" 2>"$dir/err" >/dev/full || status=$?
cases=$((cases + 1))
: >"$dir/out"
fails "a full disk" "replay: "

echo "replay: $cases cases ok"
