#!/usr/bin/env bash
# Taking in a million spans: `vurnda FOLDER ingest` over LINES_OF_SPANS lines (2,000) of SPANS spans (500), as the OpenTelemetry
# Collector's file exporter writes them, beside SQLite, which is given the same lines and takes the spans out of them by `json_each`
# (ingest/sqlite.py), and PostgreSQL, which does so by `json_array_elements` (ingest/postgres.sh); each where it is installed, one
# transaction a line, synced, into a table with an index on the trace's and the span's id and one on the name. All stand on one disk and take turns.
# Then an ingest of TIMES (4) times as many spans, and over these an opening, a look-up of a trace and a search, with the pages that
# they read, where `strace` is installed. `ingest.sh PROGRAM` takes a built program, else the one that `./vurnda` builds. Of ROUNDS runs (3)
# the least wall time, the least processor time of all processes, user and system, and the most memory of one process are told.
# Vurnda's have its opening, flushes and compactions in them, PostgreSQL's its server's beginning and end. The folder is in TMPDIR,
# which should lie on the disk that is meant and not in memory. LINES_FILE may name a file that has the lines already. Vurnda is given the
# lines in a file: a pipe holds too few bytes for more than one line of so many spans, and such lines it reads one by one.
set -eo pipefail
here=$(cd "$(dirname "$0")" && pwd)
work=${TMPDIR:-/tmp}/vurnda-bench/ingest
program=${1:-$here/../crates/vurnda/out/vurnda}
spans=${SPANS:-500}
lines=${LINES_OF_SPANS:-2000}
rounds=${ROUNDS:-3}
times=${TIMES:-4}
question='{ resource.service.name = "svc-1" && .http.response.status_code = 500 && duration > 999ms }'
rm -rf "$work"
mkdir -p "$work"
spent() { # NAME OUTPUT WORD ..: the name, and what a command takes that writes there
    echo "$1 $(python3 "$here/ingest/spent.py" "${@:2}")"
}
ingest() { # NAME LINES: an ingest of the first so many lines into a new folder
    rm -rf "$work/folder"
    head -n "$2" "$work/lines" > "$work/given"
    spent "$1" "$work/replies" "$program" "$work/folder" ingest < "$work/given"
    if [ "$(grep -c "^ok push [0-9]* accepted=$spans rejected=0 skipped=0$" "$work/replies")" != "$2" ] || grep -q '^refused' "$work/replies"; then
        echo "ingest.sh: not all was taken, see $work/replies" >&2
        exit 1
    fi
}
databases() { # the same lines into each database
    head -n "$lines" "$work/lines" > "$work/first"
    if python3 -c 'import sqlite3' 2> /dev/null; then
        spent SQLite "$work/count" python3 "$here/ingest/sqlite.py" "$work/base" < "$work/first"
    fi
    if command -v initdb > /dev/null && command -v psql > /dev/null; then
        spent PostgreSQL "$work/count" bash "$here/ingest/postgres.sh" "$work/server" < "$work/first"
    fi
    rm -rf "$work"/base* "$work/server"
}
pages() { # WORD ..: how many pages of 4,096 bytes a run reads of files, in as many bytes
    command -v strace > /dev/null || return 0
    strace -f -e trace=pread64 -o "$work/calls" "$program" "$work/folder" "$@" < /dev/null > "$work/reply"
    awk '/pread64/ && $NF > 0 { bytes += $NF } END { printf "pages %d\n", (bytes + 4095) / 4096 }' "$work/calls"
}
ask() { # NAME WORD ..: what a run over the folder takes, and the pages that it reads
    for _ in $(seq "$rounds"); do spent "$1" "$work/reply" "$program" "$work/folder" "${@:2}" < /dev/null; done
    pages "${@:2}"
}
least() { # of the lines of each name the least seconds and processor time, the most memory, and the pages
    awk '
        $1 == "pages" { pages[last] = $2; next }
        !($1 in wall) { names[++count] = $1 }
        !($1 in wall) || $2 < wall[$1] { wall[$1] = $2 }
        !($1 in cpu) || $3 < cpu[$1] { cpu[$1] = $3 }
        $4 > most[$1] { most[$1] = $4 }
        { last = $1 }
        END {
            for (i = 1; i <= count; i++) {
                it = names[i]
                printf "  %-11s %9.2f s, processor time %8.2f s, %6d MB", it, wall[it], cpu[it], most[it]
                if (it in pages) printf ", %d pages read", pages[it]
                print ""
            }
        }'
}
if [ -n "$LINES_FILE" ]; then
    ln -s "$LINES_FILE" "$work/lines"
else
    python3 "$here/lines.py" "$spans" "$((lines * times))" | sed 's/^push //' > "$work/lines"
fi
echo "taking in $((spans * lines)) spans:"
for _ in $(seq "$rounds"); do
    ingest vurnda "$lines"
    databases
done | least
echo "taking in $((spans * lines * times)) spans:"
for _ in $(seq "$rounds"); do ingest vurnda "$((lines * times))"; done | least
echo "over $((spans * lines * times)) spans in $(du -m "$work/folder" | cut -f1) MB:"
trace=$(sed -n '1 { s/.*"traceId":"\([0-9a-f]*\)".*/\1/p; q }' "$work/lines")
{
    ask opening session
    ask look-up trace "$trace"
    ask search search "$question"
} | least
rm -rf "$work"
