#!/usr/bin/env bash
# Builds the real examples with rustc, runs gdb on them, and compares all that is stored: what gdb printed, and the snapshot.
# With --store it writes these files anew. No part of the gate: it wants rustc, and gdb with Python, on x86-64 Linux.
#
#     examples/regen.sh [--store] [NAME ..]
set -euo pipefail
cd "$(dirname "$0")"
store=false
if [ "${1:-}" = --store ]; then store=true; shift; fi
if [ $# = 0 ]; then set -- $(dirname */gdb-commands.txt); fi

# The stack's addresses depend on the length of the program's path: each run has a path of the same length.
room=$(mktemp -d /tmp/rdbg-XXXXXX)
trap 'rm -rf "$room"' EXIT
mkdir -p "$room/examples" "$room/tools"
cp gdb-start.txt "$room/examples"
cp ../tools/gdb_snapshot.py "$room/tools"

# Builds and runs one example in a copy of its folder, which then has its gdb.txt and snapshot.txt.
run_example() {
    cp -r "$1" "$room/examples"
    cd "$room/examples/$1"
    rm -f snapshot.txt gdb.txt
    rustc -g -C dwarf-version=5 app.rs
    ulimit -c 0
    # (gdb's status says nothing: it ends in an error of its own where that is what an example shows)
    { SHELL=/bin/sh gdb -nx -q -batch -x gdb-commands.txt ./app 2>&1 </dev/null || true; } |
        sed -e "s|$room|/tmp|g" -e '/^warning: /d' -e '/auto-load/d' -e '/^of file /d' -e '/^\[Thread debugging/d' -e '/^Using host libthread/d' |
        cat -s > gdb.txt
}

differs=0
for name; do
    (run_example "$name") || { echo "$name: not built or not run"; differs=1; continue; }
    for file in gdb.txt snapshot.txt; do
        if $store; then
            cp "$room/examples/$name/$file" "$name/$file"
        elif ! diff -u "$name/$file" "$room/examples/$name/$file"; then
            echo "$name/$file differs"
            differs=1
        fi
    done
done
$store || [ $differs = 1 ] || echo "nothing differs: $*"
exit $differs
