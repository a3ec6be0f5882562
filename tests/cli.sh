# What the tests of both programs share: sourced, with the program's path as first argument, after `name` is set.
set -eu

if [ $# -ne 1 ]; then
    echo "usage: $0 PATH-OF-$name" >&2
    exit 2
fi
program=$1
dir=$(mktemp -d)
trap 'rm -rf "$dir"' EXIT
cases=0

differs() {
    echo "$name: case '$1' differs: $2" >&2
    exit 1
}

# run_with WORDS...: runs the program on standard input with these words; leaves standard output and standard error in files, and the status in $status
run_with() {
    status=0
    "$program" "$@" >"$dir/out" 2>"$dir/err" || status=$?
    cases=$((cases + 1))
}

# quiet CASE STATUS: the status, and an empty standard error
quiet() {
    [ "$status" -eq "$2" ] || differs "$1" "status $status, not $2"
    [ ! -s "$dir/err" ] || differs "$1" "standard error is not empty: $(cat "$dir/err")"
}

# prints CASE LINES: what standard output holds, to the byte
prints() {
    printf '%s\n' "$2" >"$dir/want"
    cmp -s "$dir/want" "$dir/out" || differs "$1" "standard output is
$(cat "$dir/out")
and not
$2"
}

# fails CASE WORDS: status 1, nothing on standard output, and one line on standard error that begins with these words
fails() {
    [ "$status" -eq 1 ] || differs "$1" "status $status, not 1"
    [ ! -s "$dir/out" ] || differs "$1" "standard output is not empty: $(cat "$dir/out")"
    [ "$(wc -l <"$dir/err")" -eq 1 ] || differs "$1" "standard error is not one line: $(cat "$dir/err")"
    grep -q "^$2" "$dir/err" || differs "$1" "standard error is $(cat "$dir/err")"
}
