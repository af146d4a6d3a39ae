#!/usr/bin/env bash
# Reading OTLP/JSON beside plain parsing: for lines of 5, 500 and 16,000 spans the processor time of `vurnda FOLDER session`
# over that of a Rust program on serde_json that only parses the same lines. It needs Debian's librust-serde-json-dev and
# cargo, and a built program (`./vurnda` builds it). Each time is the least of five runs.
set -e
here=$(cd "$(dirname "$0")" && pwd)
work=${TMPDIR:-/tmp}/vurnda-bench
program=${1:-$here/../crates/vurnda/out/vurnda}
mkdir -p "$work/cargo"
cat > "$work/cargo/config.toml" <<'C'
[source.crates-io]
replace-with = "debian"
[source.debian]
directory = "/usr/share/cargo/registry"
C
(cd "$here/parse" && CARGO_HOME="$work/cargo" CARGO_TARGET_DIR="$work/target" cargo build --release --offline --quiet)
seconds() { # the least processor time of five runs of a command on an input
    local input=$1
    shift
    for _ in 1 2 3 4 5; do
        { TIMEFORMAT='%U %S'; time "$@" < "$input" > /dev/null; } 2>&1 | awk '{print $1 + $2}'
    done | sort -n | head -n 1
}
for size in "5 20000" "500 200" "16000 6"; do
    read -r spans lines <<< "$size"
    set -- "$spans" "$lines"
    python3 "$here/lines.py" "$1" "$2" > "$work/$1.txt"
    ours=$(seconds "$work/$1.txt" "$program" "$work/store" session)
    theirs=$(seconds "$work/$1.txt" "$work/target/release/parse")
    awk -v s="$1" -v l="$2" -v a="$ours" -v b="$theirs" 'BEGIN { printf "%d lines of %d spans: %.2f s, parsing alone %.2f s, ratio %.2f\n", l, s, a, b, a / b }'
done
