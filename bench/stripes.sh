#!/usr/bin/env bash
# Stripes beside JSON: rows and bytes a second of processor time for reading and writing a stripe of 256 spans with five attributes
# each, and for parsing the same spans as one line of OTLP/JSON by `serde_json`, all three in one program of this folder
# (stripes/program.txt) that is built first, with the crates that it stands on. Each time is the least of five runs of COUNT calls
# less that of a run without calls.
set -e
here=$(cd "$(dirname "$0")" && pwd)
work=${TMPDIR:-/tmp}/vurnda-bench
count=${1:-4000}
mkdir -p "$work/tree/crates/stripe_bench/src"
for name in $("$here/../tools/crates" below block_stripes); do # copies of what it stands on, with what is built
    [ -d "$here/../crates/$name" ] || continue
    rm -rf "$work/tree/crates/$name"
    tar -C "$here/../crates" --exclude=incremental -cf - "$name" | tar -C "$work/tree/crates" -xf -
done
for name in "$work/tree/crates"/*/; do grep "^$(basename "$name"):" "$here/../crates.txt" || true; done > "$work/tree/crates.txt"
echo "stripe_bench: $("$here/../tools/crates" below block_stripes | tr '\n' ' ') serde_json" >> "$work/tree/crates.txt"
cmp -s "$here/stripes/program.txt" "$work/tree/crates/stripe_bench/src/main.rt" || cp "$here/stripes/program.txt" "$work/tree/crates/stripe_bench/src/main.rt"
input() { # LETTER COUNT FILE: what the program reads
    printf '%s' "$1"
    printf '%b' "$(printf '\\x%02x' $(($2 & 255)) $(($2 >> 8 & 255)) $(($2 >> 16 & 255)) $(($2 >> 24)))"
    cat "$3"
}
python3 "$here/stripes/rows.py" stripe > "$work/stripe"
python3 "$here/stripes/rows.py" json > "$work/json"
input r 1 "$work/stripe" > "$work/input"
(cd "$work/tree/crates/stripe_bench" && rt run < "$work/input" > /dev/null 2> "$work/build.log") || { tail -n 5 "$work/build.log"; exit 1; }
seconds() { # the least processor time of five runs on an input
    for _ in 1 2 3 4 5; do
        { TIMEFORMAT='%U %S'; time "$work/tree/crates/stripe_bench/out/stripe_bench" < "$1"; } 2>&1 | awk '{print $1 + $2}'
    done | sort -n | head -n 1
}
calls() { # LETTER FILE: the processor time of COUNT calls
    input "$1" 0 "$2" > "$work/none"
    input "$1" "$count" "$2" > "$work/input"
    awk -v a="$(seconds "$work/input")" -v n="$(seconds "$work/none")" 'BEGIN { print a - n }'
}
reading=$(calls r "$work/stripe")
writing=$(calls w "$work/stripe")
parsing=$(calls j "$work/json")
row() { # NAME SECONDS FILE
    awk -v k="$1" -v s="$2" -v p="$parsing" -v c="$count" -v b="$(stat -c %s "$3")" 'BEGIN {
        printf "%s: %.2f s, %.0f rows/s, %.1f MB/s of %d bytes a call, ratio to parsing %.2f\n", k, s, 256 * c / s, b * c / s / 1e6, b, s / p
    }'
}
row "reading a stripe" "$reading" "$work/stripe"
row "writing a stripe" "$writing" "$work/stripe"
row "parsing JSON" "$parsing" "$work/json"
