#!/usr/bin/env bash
# What seats cost: microseconds a call of `held`, a push of an empty batch and a page read, of a store in memory, by its core and by 1, 2, 4
# and 8 seats on as many threads, by a program of this folder (seats/program.txt) that is proved and built first, with the crates that it
# stands on; and the processor time of eight large pushes beside eight threads that ask, and of both apart: those that wait sleep if the two are alike.
# `seats.sh ROUNDS` takes the least of another number of runs.
set -e
here=$(cd "$(dirname "$0")" && pwd)
work=${TMPDIR:-/tmp}/vurnda-bench/seats
program=$work/tree/crates/seat_bench
mkdir -p "$program/src" "$program/proofs"
deps=$("$here/../tools/crates" below shared_store flusher | tr '\n' ' ')
for name in $deps; do # copies of what it stands on, with what is built
    [ -d "$here/../crates/$name" ] || continue
    rm -rf "$work/tree/crates/$name"
    tar -C "$here/../crates" --exclude=incremental -cf - "$name" | tar -C "$work/tree/crates" -xf -
done
for name in $deps; do grep "^${name}[: ]" "$here/../crates.txt" || true; done > "$work/tree/crates.txt"
echo "seat_bench: $deps" >> "$work/tree/crates.txt"
cp "$here/../HANDLES" "$work/tree/HANDLES"
cmp -s "$here/seats/program.txt" "$program/src/main.rt" || cp "$here/seats/program.txt" "$program/src/main.rt"
find "$here/seats/proofs" -name '*.txt' -printf '%P\n' | while IFS= read -r file; do # rt ci takes no .antt file outside of a crate
    mkdir -p "$program/proofs/$(dirname "$file")"
    cp "$here/seats/proofs/$file" "$program/proofs/${file%.txt}.antt"
done
for name in Crossing Looks SeatHolds; do # lemmas of the tests, under this program's name
    sed 's/shared_tests/seat_bench/g' "$here/../crates/shared_tests/proofs/$name.antt" > "$program/proofs/$name.antt"
done
printf 'h\001\001\000\000\000' > "$work/given"
(cd "$program" && rt run < "$work/given" > /dev/null 2> "$work/build.log") || { tail -n 5 "$work/build.log"; exit 1; }
cp "$program/out/seat_bench" "$work/program"
python3 "$here/seats/times.py" "$work/program" "${1:-5}"
