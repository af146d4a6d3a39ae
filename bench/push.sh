#!/usr/bin/env bash
# Acknowledged pushes a second: a session over a folder beside a small Rust program that makes the same two writes and two
# syncs a push and nothing else (push/floor.rs), and beside SQLite, which inserts the same spans in one transaction a push
# (push/sqlite.py); all three on one disk, in turns. Then how long it takes to open that folder, less the time to open an
# empty one. `push.sh PROGRAM` takes a built program, else the one that `./vurnda` builds. Each number is the best of
# ROUNDS runs; beside the rates stand those at which the quickest tenth of the pushes went, which other work on the disk changes
# less. The folder is in TMPDIR, which should lie on the disk that is meant and not in memory. `PUSHES=N` and
# `LARGE=N` push another count of lines of one span and of 500.
set -eo pipefail
here=$(cd "$(dirname "$0")" && pwd)
work=${TMPDIR:-/tmp}/vurnda-bench/push
program=${1:-$here/../crates/vurnda/out/vurnda}
rm -rf "$work"
mkdir -p "$work"
rustc --edition 2021 -O -o "$work/floor" "$here/push/floor.rs"
opening() { # FOLDER: the seconds of a session without a request
    { TIMEFORMAT=%R; time "$program" "$1" session < /dev/null; } 2>&1
}
for size in "1 ${PUSHES:-2000}" "500 ${LARGE:-100}"; do
    read -r spans lines <<< "$size"
    set -- "$spans" "$lines"
    python3 "$here/lines.py" "$1" "$2" > "$work/lines"
    for _ in $(seq "${ROUNDS:-5}"); do
        session=$(python3 "$here/push/acks.py" "$program" "$work/folder" "$work/lines")
        echo "session $session"
        echo "floor $("$work/floor" "$work/file" "$2" "${session##* }")"
        echo "sqlite $(python3 "$here/push/sqlite.py" "$work/base" "$work/lines")"
        echo "opening $(opening "$work/folder")"
        echo "empty $(opening "$work/none")"
        rm -rf "$work/folder" "$work/none" "$work/file" "$work"/base*
    done | awk -v spans="$1" -v lines="$2" '
        $1 == "opening" || $1 == "empty" {
            if (!($1 in least) || $2 < least[$1]) least[$1] = $2
            next
        }
        $2 / $3 > rate[$1] { rate[$1] = $2 / $3 }
        1 / $4 > quick[$1] { quick[$1] = 1 / $4 }
        $1 == "session" { bytes = $5 }
        END {
            printf "lines of %d spans, %d bytes each in the log, in lines and in spans a second:\n", spans, bytes
            printf "  session   %9.0f %9.0f\n", rate["session"], spans * rate["session"]
            printf "  two syncs %9.0f %9.0f, of which the session has %.2f\n", rate["floor"], spans * rate["floor"], rate["session"] / rate["floor"]
            printf "  SQLite    %9.0f %9.0f, of which the session has %.2f\n", rate["sqlite"], spans * rate["sqlite"], rate["session"] / rate["sqlite"]
            printf "  of the quickest tenth of pushes: session %.0f, two syncs %.0f (%.2f), SQLite %.0f (%.2f)\n", quick["session"], quick["floor"], quick["session"] / quick["floor"], quick["sqlite"], quick["session"] / quick["sqlite"]
            own = least["opening"] - least["empty"]
            printf "  opening %d spans takes %.3f s", spans * lines, own
            # Of fewer spans an opening is mostly its beginning.
            if (spans * lines >= 10000) printf ", for a million %.2f s", own / (spans * lines) * 1e6
            printf "\n"
        }'
done
