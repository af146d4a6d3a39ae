#!/usr/bin/env bash
# Searches over 20,000 traces beside pushing them: the user time of a session that pushes them and of those that also
# search them ten times. `search.sh PROGRAM ..` takes built programs (`./vurnda` builds one) or checkouts, whose programs it
# builds without proof (`times.py`), so that an old and a new one are compared in one run. Each time is the least of three
# runs, and each ratio that of the first program's time to this one's. `TRACES=N` pushes another count of traces.
set -e
here=$(cd "$(dirname "$0")" && pwd)
work=${TMPDIR:-/tmp}/vurnda-bench/search
[ $# -gt 0 ] || set -- "$here/../crates/vurnda/out/vurnda"
rm -rf "$work"
mkdir -p "$work"
queries=(
    '{ status = error }'
    '{ name =~ ".*1.*" } | count() > 1'
    '{ } >> { kind = client } | by(name) | avg(duration) > 1ms'
)
python3 "$here/lines.py" 5 "${TRACES:-20000}" > "$work/push"
for i in "${!queries[@]}"; do
    { cat "$work/push"; for _ in 1 2 3 4 5 6 7 8 9 10; do echo "search ${queries[i]}"; done; } > "$work/$i"
done
python3 "$here/times.py" 3 "$work" "$@" | awk -F '\t' -v queries="$(printf '%s\n' "${queries[@]}")" '
    BEGIN { asked = split(queries, query, "\n") }
    { time[$1, $2] = $3 }
    !seen[$1]++ { program[++count] = $1 }
    END {
        for (i = 1; i <= count; i++) {
            push = time[program[i], "push"]
            printf "%s: pushing %.2f s\n", program[i], push
            for (j = 1; j <= asked; j++) {
                own = (time[program[i], j - 1] - push) / 10
                if (i == 1) first[j] = own
                printf "%s: %s: %.3f s a search, %.2f of the pushes", program[i], query[j], own, own / push
                if (own > 0) printf " (ratio %.2f)", first[j] / own
                print ""
            }
        }
    }'
