#!/usr/bin/env bash
# Metrics beside the search that they are made from, over 100,000 spans in 1,000 traces in memory: the user time of a session
# that pushes them, and of those that also ask ten times, by `search` with limits that leave out nothing or by `metrics` over
# 1,000 buckets. A question's time is a tenth of what it adds to the pushes. The goal is that `metrics` takes at most 1.3
# times as long as `search`, which writes all spans as JSON besides. `metrics.sh PROGRAM ..` takes built programs (`./vurnda`
# builds one) or checkouts, whose programs it builds without proof (`times.py`). Each time is the least of three runs.
set -e
here=$(cd "$(dirname "$0")" && pwd)
work=${TMPDIR:-/tmp}/vurnda-bench/metrics
[ $# -gt 0 ] || set -- "$here/../crates/vurnda/out/vurnda"
rm -rf "$work"
mkdir -p "$work/cases"
start=1700000000000000000 # before the first span of lines.py
end=1701000003000000000   # after the last one, so that a thousand steps make the range
step=1000003000000
ask() { # NAME LINE: a case that pushes and then asks the line ten times
    { cat "$work/cases/push"; for _ in 1 2 3 4 5 6 7 8 9 10; do echo "$2"; done; } > "$work/cases/$1"
}
python3 "$here/lines.py" 100 1000 > "$work/cases/push"
ask search-all "search limit=1000 spss=1000 start=$start end=$end { }"
ask metrics-all "metrics start=$start end=$end step=$step { } | rate()"
ask search-by "search limit=1000 spss=1000 start=$start end=$end { } | by(name)"
ask metrics-by "metrics start=$start end=$end step=$step { } | rate() by (name)"
for program; do # an answer that isn't over all spans would be measured for nothing
    [ -f "$program" ] || continue
    tail -qn 1 "$work"/cases/*-* | cat "$work/cases/push" - > "$work/each"
    "$program" "$work/store" session < "$work/each" > "$work/replies" || true
    python3 "$here/metrics/whole.py" "$step" < "$work/replies"
    rm -rf "$work/store"
done
python3 "$here/times.py" 3 "$work/cases" "$@" | awk -F '\t' '
    { time[$1, $2] = $3 }
    !seen[$1]++ { program[++count] = $1 }
    END {
        for (i = 1; i <= count; i++) {
            push = time[program[i], "push"]
            printf "%s: pushing %.2f s\n", program[i], push
            asked = split("all by", kind, " ")
            for (j = 1; j <= asked; j++) {
                search = (time[program[i], "search-" kind[j]] - push) / 10
                metrics = (time[program[i], "metrics-" kind[j]] - push) / 10
                printf "%s: %s: search %.3f s, metrics %.3f s", program[i], kind[j] == "by" ? "by name" : "all spans", search, metrics
                if (search > 0) printf ", ratio %.2f of at most 1.30", metrics / search
                print ""
            }
        }
    }'
