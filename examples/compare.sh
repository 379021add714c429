#!/usr/bin/env bash
# Compares what a program prints of each example with the answers stored beside it. It shows each difference, goes on, and ends with
# status 1 where there was one.
#
#     examples/compare.sh PROGRAM
#
# `check.txt` and `answer.txt` are what `check` and `text` print, with status 0 and no message; of a `bundle`, `show.txt` and `print.txt` are what `show` and
# `print` print. Where there is a `message.txt`, both commands
# print nothing, and end with that message and the status in `status.txt`. Of a layout without functions `emit dwarf` writes a bundle of which `show` is the layout
# and `print` the answer.
set -uo pipefail
program=$(realpath "$1")
cd "$(dirname "$0")"
room=$(mktemp -d)
trap 'rm -rf "$room"' EXIT
touch "$room/empty"
echo 0 > "$room/zero"
differs=0

# same WHAT WANTED CAME: whether two files are the same; shows how they differ.
same() {
    diff -u --label "$1, wanted" --label "$1, came" "$2" "$3" || differs=1
}

# run ANSWER MESSAGE STATUS WORD ..: runs the program, and compares what it prints, its message and its status with three files.
run() {
    local answer=$1 message=$2 status=$3
    shift 3
    "$program" "$@" > "$room/out" 2> "$room/err"
    echo $? > "$room/status"
    same "$example: rdbg $*" "$answer" "$room/out"
    same "$example: the message of rdbg $*" "$message" "$room/err"
    same "$example: the status of rdbg $*" "$status" "$room/status"
}

for example in */; do
    example=${example%/}
    cd "$example"
    if [ -e bundle ]; then
        run show.txt "$room/empty" "$room/zero" show bundle
        run print.txt "$room/empty" "$room/zero" print bundle snapshot.txt
    elif [ -e message.txt ]; then
        run "$room/empty" message.txt status.txt check layout.txt
        run "$room/empty" message.txt status.txt text layout.txt snapshot.txt
    else
        run check.txt "$room/empty" "$room/zero" check layout.txt
        run answer.txt "$room/empty" "$room/zero" text layout.txt snapshot.txt
        if ! grep -q '^fn ' layout.txt; then
            "$program" emit dwarf layout.txt > "$room/bundle"
            run layout.txt "$room/empty" "$room/zero" show "$room/bundle"
            run answer.txt "$room/empty" "$room/zero" print "$room/bundle" snapshot.txt
        fi
    fi
    cd ..
done
exit $differs
