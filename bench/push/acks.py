#!/usr/bin/env python3
"""`acks.py PROGRAM FOLDER LINES` runs a session of the program in a new folder over a file of push lines, and prints how
many were acknowledged after the first, the seconds from its reply to the last, those of which only a tenth of the pushes took less,
and the bytes that the log has for a push."""
import os
import subprocess
import sys
import time

program, folder, lines = sys.argv[1:]
with open(lines, "rb") as pushes:
    session = subprocess.Popen([program, folder, "session"], stdin=pushes, stdout=subprocess.PIPE)
    moments = []
    for reply in session.stdout:
        moments.append(time.perf_counter())
        if not reply.startswith(b"ok push "):
            sys.exit(f"reply {len(moments)}: {reply[:200]!r}")
    status = session.wait()
if status or len(moments) < 2:
    sys.exit(f"status {status} after {len(moments)} replies")
# The slots of the list are the files 0 and 1.
stored = sum(os.path.getsize(f"{folder}/{name}") for name in os.listdir(folder) if name not in ("0.dat", "1.dat"))
taken = sorted(late - early for early, late in zip(moments, moments[1:]))
print(len(taken), f"{sum(taken):.6f} {taken[len(taken) // 10]:.6f}", stored // len(moments))
