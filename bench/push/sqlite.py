#!/usr/bin/env python3
"""`sqlite.py FILE LINES` inserts the spans of each push line into a new SQLite database, one transaction a line, with a log
written ahead that each commit syncs. The lines are parsed before. It prints how many lines came after the first, the seconds
that they took, and those of which only a tenth of the lines took less."""
import os
import sqlite3
import sys
import time

sys.path.insert(0, os.path.dirname(os.path.dirname(os.path.abspath(__file__))))
import spans  # of this folder's parent

path, lines = sys.argv[1:]

with open(lines) as pushes:
    batches = [list(spans.rows(line)) for line in pushes]
base = sqlite3.connect(path, isolation_level=None)
base.execute("pragma journal_mode = wal")
base.execute("pragma synchronous = full")
base.execute(f"create table span ({spans.COLUMNS}, primary key (trace, id))")


def push(batch):
    base.execute("begin")
    base.executemany(spans.INSERT, batch)
    base.execute("commit")


push(batches[0])
taken = []
for batch in batches[1:]:
    begun = time.perf_counter()
    push(batch)
    taken.append(time.perf_counter() - begun)
taken.sort()
print(len(taken), f"{sum(taken):.6f} {taken[len(taken) // 10]:.6f}")
