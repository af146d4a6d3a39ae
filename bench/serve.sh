#!/usr/bin/env bash
# Several clients at once beside one session: how many pushes of one span a second N clients (1, 2, 4, 8) have acknowledged, and how many
# searches a second over TRACES traces (12,500) of 8 spans they are answered, each in an open store, so less the time of a run without a
# line. The same lines go to a session, and dealt out in turns to the clients of `serve`, which reads all lines before it asks any.
# `serve.sh PROGRAM` takes a built program, else the one that `./vurnda` builds. Each time is the least of ROUNDS runs (3). The folder is
# in TMPDIR, which should lie on the disk that is meant and not in memory. PUSHES=N and SEARCHES=N ask another number of lines.
set -eo pipefail
here=$(cd "$(dirname "$0")" && pwd)
work=${TMPDIR:-/tmp}/vurnda-bench/serve
program=${1:-$here/../crates/vurnda/out/vurnda}
pushes=${PUSHES:-4000}
searches=${SEARCHES:-96}
rounds=${ROUNDS:-3}
rm -rf "$work"
mkdir -p "$work"
took() { # NAME WORD ..: the name and the seconds of a run over the lines of standard input
    { TIMEFORMAT="$1 %R"; time "$program" "$work/$folder" "${@:2}" > "$work/replies"; } 2>&1
    if grep -q refused "$work/replies"; then
        echo "serve.sh: a line was refused, see $work/replies" >&2
        exit 1
    fi
}
deal() { # N: leads each line by the number of a client, in turns
    awk -v clients="$1" '{ print (NR - 1) % clients, $0 }' "$work/asked"
}
rates() { # WORD: what the session and the clients have asked a second
    awk -v word="$1" -v asked="$(wc -l < "$work/asked")" '
        !($1 in least) { names[++count] = $1 }
        !($1 in least) || $2 < least[$1] { least[$1] = $2 }
        END {
            for (i = 1; i <= count; i++) if (names[i] != "empty") {
                own = least[names[i]] - least["empty"]
                if (own <= 0) own = 0.001
                rate[names[i]] = asked / own
                printf "  %-10s %9.0f %s a second, %.2f of the session\n", names[i], rate[names[i]], word, rate[names[i]] / rate["session"]
            }
        }'
}
ask() { # WORD: a session, and N clients
    for _ in $(seq "$rounds"); do
        renew
        took empty session < /dev/null
        renew
        took session session < "$work/asked"
        for clients in 1 2 4 8; do
            renew
            deal "$clients" | took "$clients" serve --clients "$clients"
        done
    done | rates "$1"
}
folder=pushed
renew() { rm -rf "$work/pushed"; }
python3 "$here/lines.py" 1 "$pushes" > "$work/asked"
ask pushes
folder=searched
renew() { :; }
python3 "$here/lines.py" 8 "${TRACES:-12500}" | sed 's/^push //' | "$program" "$work/searched" ingest > "$work/replies"
for i in $(seq "$searches"); do echo "search { status = error && .url.path = \"/orders/$i\" }"; done > "$work/asked"
ask searches
