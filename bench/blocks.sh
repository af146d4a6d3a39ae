#!/usr/bin/env bash
# A block beside SQLite: rows a second of processor time for building the block of 262,144 rows with five attributes each, in memory,
# for building it and writing its bytes to a file, and for building and checking it, by a program of this folder (blocks/program.txt)
# that is proved and built first, with the crates that it stands on; and for SQLite, which inserts the same rows in one transaction
# into a new table with an index on the trace's id, by a C program (blocks/insert.c) with the database's defaults. `blocks.sh ROWS
# ROUNDS` takes another number of rows, up to 1,048,576, and of runs. It needs a C compiler and Debian's `libsqlite3-dev`; the files are
# in TMPDIR, which should lie on the disk that is meant.
set -e
here=$(cd "$(dirname "$0")" && pwd)
work=${TMPDIR:-/tmp}/vurnda-bench/blocks
count=${1:-262144}
program=$work/tree/crates/block_bench
mkdir -p "$program/src"
deps=$("$here/../tools/crates" below block_build block_read | tr '\n' ' ')
for name in $deps; do # copies of what it stands on, with what is built
    [ -d "$here/../crates/$name" ] || continue
    rm -rf "$work/tree/crates/$name"
    tar -C "$here/../crates" --exclude=incremental -cf - "$name" | tar -C "$work/tree/crates" -xf -
done
for name in $deps; do grep "^$name:" "$here/../crates.txt" || true; done > "$work/tree/crates.txt"
echo "block_bench: $deps" >> "$work/tree/crates.txt"
cmp -s "$here/blocks/program.txt" "$program/src/main.rt" || cp "$here/blocks/program.txt" "$program/src/main.rt"
python3 "$here/blocks/rows.py" "$count" "$work"
{ printf m; cat "$work/stripes"; } > "$work/given"
(cd "$program" && rt run < "$work/given" > /dev/null 2> "$work/build.log") || { tail -n 5 "$work/build.log"; exit 1; }
cp "$program/out/block_bench" "$work/program"
cc -O2 -o "$work/insert" "$here/blocks/insert.c" -lsqlite3
python3 "$here/blocks/times.py" "${2:-5}" "$count" "$work"
