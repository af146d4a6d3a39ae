#!/usr/bin/env python3
"""`sqlite.py FILE` inserts the spans of the push lines of standard input into a new SQLite database, in one transaction, into a
table with an index on the trace's id. The lines are parsed before. It prints how many spans there are, the seconds from the
transaction's begin to its end, and the processor time that it took meanwhile."""
import os
import sqlite3
import sys
import time

sys.path.insert(0, os.path.dirname(os.path.dirname(os.path.abspath(__file__))))
import spans  # of this folder's parent


def main():
    rows = [row for line in sys.stdin for row in spans.rows(line)]
    base = sqlite3.connect(sys.argv[1], isolation_level=None)
    base.execute(f"create table span ({spans.COLUMNS})")
    base.execute("create index span_of_trace on span (trace)")
    spent, begun = time.process_time(), time.perf_counter()
    base.execute("begin")
    base.executemany(spans.INSERT, rows)
    base.execute("commit")
    print(len(rows), f"{time.perf_counter() - begun:.6f} {time.process_time() - spent:.2f}")


main()
