#!/usr/bin/env python3
"""`spent.py OUTPUT WORD ..` runs a command, whose output goes to that file, and prints what it took with all its children: the seconds,
the processor time, user and system, and the most memory that one of them held, in MB."""
import os
import subprocess
import sys
import time

begun = time.perf_counter()
with open(sys.argv[1], "wb") as output:
    process = subprocess.Popen(sys.argv[2:], stdout=output)
_, status, usage = os.wait4(process.pid, 0)
taken = time.perf_counter() - begun
if status:
    sys.exit(f"spent.py: {' '.join(sys.argv[2:])} ended with status {os.waitstatus_to_exitcode(status)}")
print(f"{taken:.3f} {usage.ru_utime + usage.ru_stime:.2f} {usage.ru_maxrss / 1024:.0f}")
