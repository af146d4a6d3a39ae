#!/usr/bin/env bash
# 400 `by` stages over one trace of 10,000 spans: the user time of a search that splits it into a few spansets and of
# one that splits it into thousands. `by.sh PROGRAM ..` takes built programs (`./vurnda` builds one) or checkouts, whose
# programs it builds without proof (`times.py`), so that an old and a new one are compared in one run. Each time is the
# least of three runs less that of the push, and each ratio that of the first program's time to this one's. `SPANS=N` and
# `STAGES=N` ask for a smaller trace and fewer stages, for programs with checks.
set -e
here=$(cd "$(dirname "$0")" && pwd)
work=${TMPDIR:-/tmp}/vurnda-bench/by
[ $# -gt 0 ] || set -- "$here/../crates/vurnda/out/vurnda"
rm -rf "$work"
mkdir -p "$work"
stages() { # so many stages of one kind
    for _ in $(seq "$1"); do printf ' | %s' "$2"; done
}
few="{ }$(stages "${STAGES:-400}" 'by(name)') | coalesce()"
many="{ } | by(.url.path)$(stages "$((${STAGES:-400} - 1))" 'by(name)') | coalesce()"
python3 "$here/lines.py" "${SPANS:-10000}" 1 > "$work/push"
{ cat "$work/push"; echo "search $few"; } > "$work/few"
{ cat "$work/push"; echo "search $many"; } > "$work/many"
python3 "$here/times.py" 3 "$work" "$@" | awk -F '\t' '
    { time[$1, $2] = $3 }
    !seen[$1]++ { program[++count] = $1 }
    END {
        for (i = 1; i <= count; i++) {
            push = time[program[i], "push"]
            printf "%s: pushing %.2f s", program[i], push
            for (j = 1; j <= 2; j++) {
                name = j == 1 ? "few" : "many"
                own = time[program[i], name] - push
                if (i == 1) first[name] = own
                printf ", %s spansets %.2f s", name, own
                if (own > 0) printf " (ratio %.2f)", first[name] / own
            }
            print ""
        }
    }'
