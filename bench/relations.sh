#!/usr/bin/env bash
# Relations over one large trace: the processor time of a search over a chain, a star and a ring of 50,000 and of 100,000
# spans. It needs a built program (`./vurnda` builds it). Each time is a fifth of what five searches add to the pushes, each
# the least of three runs.
set -e
here=$(cd "$(dirname "$0")" && pwd)
work=${TMPDIR:-/tmp}/vurnda-bench
program=${1:-$here/../crates/vurnda/out/vurnda}
mkdir -p "$work"
seconds() { # the least processor time of three sessions over an input
    for _ in 1 2 3; do
        { TIMEFORMAT='%U %S'; time "$program" "$work/store" session < "$1" > /dev/null; } 2>&1 | awk '{print $1 + $2}'
    done | sort -n | head -n 1
}
for shape in chain star ring; do
    for spans in 50000 100000; do
        python3 "$here/trace.py" "$shape" "$spans" > "$work/trace.txt"
        pushing=$(seconds "$work/trace.txt")
        while IFS= read -r query; do
            { cat "$work/trace.txt"; for _ in 1 2 3 4 5; do echo "search $query"; done; } > "$work/search.txt"
            both=$(seconds "$work/search.txt")
            awk -v s="$shape" -v n="$spans" -v q="$query" -v p="$pushing" -v b="$both" 'BEGIN { printf "%s of %d spans, %s: %.3f s, pushing %.2f s\n", s, n, q, (b - p) / 5, p }'
        done <<'Q'
{ }
{ } >> { }
{ } &~ { }
Q
    done
done
