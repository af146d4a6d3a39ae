#!/usr/bin/env bash
# Look-ups and searches over an open store of TRACES traces (125,000) of 8 spans, pushed in lines of EACH traces (1), flushed and compacted
# by an ingest, beside SQLite, and PostgreSQL if it is installed, over the same spans with an index on the trace's id: what each question
# takes, what memory, and how many pages a look-up reads (queries/ask.py). `queries.sh PROGRAM` takes a built program, else the one that
# `./vurnda` builds. The folder is in TMPDIR, which should lie on the disk that is meant and not in memory; KEEP=yes keeps it, and a kept
# one is used again.
set -eo pipefail
here=$(cd "$(dirname "$0")" && pwd)
program=${1:-$here/../crates/vurnda/out/vurnda}
traces=${TRACES:-125000}
each=${EACH:-1}
work=${TMPDIR:-/tmp}/vurnda-bench/queries-$traces
if [ ! -e "$work/whole" ]; then
    rm -rf "$work"
    mkdir -p "$work"
    python3 "$here/lines.py" 8 "$((traces / each))" "$each" > "$work/lines"
    sed 's/^push //' "$work/lines" | "$program" "$work/folder" ingest > "$work/replies"
    if grep -q '^refused' "$work/replies"; then
        echo "queries.sh: not all was taken, see $work/replies" >&2
        exit 1
    fi
    sed 's/^push //' "$work/lines" | python3 "$here/ingest/sqlite.py" "$work/folder.sqlite" > "$work/count"
    touch "$work/whole"
fi
echo "over $((traces * 8)) spans in $(du -sm "$work/folder" | cut -f1) MB and $(find "$work/folder" -name '*.dat' -size +100k | wc -l) large files:"
python3 "$here/queries/ask.py" "$program" "$work/folder" "$work/lines" "$((traces / each))"
[ -n "$KEEP" ] || rm -rf "$work"
