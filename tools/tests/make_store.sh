#!/usr/bin/env bash
# make_store.sh PROGRAM: makes the folder tools/tests/data/store anew, by a session of the built program over the pushes
# of examples/. It ends with 1 where a reply isn't the expected one. test_stored_folder.py says what the folder holds.
set -euo pipefail
(($# == 1)) || { echo "usage: make_store.sh PROGRAM" >&2; exit 2; }
program=$(realpath "$1")
here=$(cd "$(dirname "${BASH_SOURCE[0]}")" && pwd)
examples=$here/../../examples
folder=$here/data/store

collected() { # N: a push of line N of examples/collector.jsonl
    printf 'push %s\n' "$(sed -n "$1p" "$examples/collector.jsonl")"
}

first() { # N: line N of examples/first.txt, which is a push
    sed -n "$1p" "$examples/first.txt"
}

lines() {
    collected 1 # push 0, in file 2
    echo cutall
    echo flush # block 3 and segment 4; file 2 is loose
    collected 2 # push 1, in file 4
    echo cutall
    echo flush # block 5 and segment 6; file 4 is loose
    echo compact # block 7 of the blocks 3 and 5, which are loose
    collected 3 # push 2, in file 6
    echo cutall
    first 1 # push 3, in file 6; it waits
    echo flush # block 8 and segment 9; the floor is 3, so file 6 stays
    first 2 # pushes 4 to 6, in file 9
    first 3
    first 4
}

wanted="ok push 0 accepted=3 rejected=0 skipped=5
ok cutall moved=3
ok flush rows=3
ok push 1 accepted=2 rejected=0 skipped=3
ok cutall moved=2
ok flush rows=2
ok compact blocks=2 rows=5
ok push 2 accepted=3 rejected=0 skipped=3
ok cutall moved=3
ok push 3 accepted=1 rejected=0 skipped=0
ok flush rows=3
ok push 4 accepted=2 rejected=0 skipped=0
ok push 5 accepted=2 rejected=0 skipped=0
ok push 6 accepted=2 rejected=0 skipped=0"

mkdir -p "$here/data"
rm -rf "$folder"
replies=$(lines | "$program" "$folder" session)
rm -f "$folder/lock"
diff <(echo "$wanted") <(echo "$replies") || { echo "make_store.sh: other replies than expected" >&2; exit 1; }
