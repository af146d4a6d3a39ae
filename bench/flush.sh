#!/usr/bin/env bash
# Spans a second of a flush: a session holds SPANS spans (131,072), and `cutall` and `flush` make a block of them
# (flush/session.py), beside SQLite, which inserts the same spans, parsed before, in one transaction into a table with an index on
# the trace's id (flush/sqlite.py), both on one disk, in turns. Then how long a restart takes with TOTAL spans (1,000,000) in blocks:
# a look-up of a trace that isn't there, less the same in an empty folder, beside `cat` of the folder's files, which were written
# before. `flush.sh PROGRAM` takes a built program, else the one that `./vurnda` builds. Each number is the best of ROUNDS runs;
# beside the seconds stands processor time, user and system. The folder is in TMPDIR, which should lie on the disk that is meant and
# not in memory.
set -eo pipefail
here=$(cd "$(dirname "$0")" && pwd)
work=${TMPDIR:-/tmp}/vurnda-bench/flush
program=${1:-$here/../crates/vurnda/out/vurnda}
spans=${SPANS:-131072}
total=${TOTAL:-1000000}
rounds=${ROUNDS:-3}
rm -rf "$work"
mkdir -p "$work"
took() { # OUTPUT WORD ..: the seconds and the processor time of a command that writes there
    { TIMEFORMAT='%R %U %S'; time "${@:2}" > "$1"; } 2>&1 | awk '{ print $1, $2 + $3 }'
}
look() { # FOLDER: the same of a look-up
    took "$work/reply" "$program" "$1" trace 00000000000000000000000000000001
    grep -q '^ok trace as_of=[0-9]* spans=0 ' "$work/reply"
}
python3 "$here/lines.py" 8 "$((spans / 8))" > "$work/lines"
for _ in $(seq "$rounds"); do
    echo "session $(python3 "$here/flush/session.py" "$program" "$work/folder" "$spans" < "$work/lines")"
    echo "sqlite $(python3 "$here/flush/sqlite.py" "$work/base" < "$work/lines")"
    rm -rf "$work/folder" "$work"/base*
done | awk '
    !($1 in least) || $3 < least[$1] { least[$1] = $3 }
    !($1 in spent) || $4 < spent[$1] { spent[$1] = $4 }
    { spans = $2 }
    END {
        printf "flushing %d spans:\n", spans
        for (who in least) printf "  %-8s %8.3f s, %9.0f spans a second, processor time %.2f s\n", who, least[who], spans / least[who], spent[who]
        printf "  SQLite takes %.2f times as long\n", least["sqlite"] / least["session"]
    }'
python3 "$here/lines.py" 8 "$((total / 8))" | python3 "$here/flush/session.py" "$program" "$work/folder" "$spans" > "$work/flushes"
for _ in $(seq "$rounds"); do
    echo "restart $(look "$work/folder")"
    echo "empty $(look "$work/none")"
    echo "cat $(took /dev/null cat "$work"/folder/*.dat)"
done | awk -v spans="$total" -v blocks="$(wc -l < "$work/flushes")" '
    !($1 in least) || $2 < least[$1] { least[$1] = $2 }
    !($1 in spent) || $3 < spent[$1] { spent[$1] = $3 }
    END {
        own = least["restart"] - least["empty"]
        printf "a restart with %d spans in %d blocks: %.3f s, processor time %.2f s\n", spans, blocks, own, spent["restart"] - spent["empty"]
        printf "  reading the same bytes: %.3f s, processor time %.2f s\n", least["cat"], spent["cat"]
        if (least["cat"] > 0) printf "  a restart takes %.1f times as long\n", own / least["cat"]
    }'
rm -rf "$work"
