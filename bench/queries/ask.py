#!/usr/bin/env python3
"""`ask.py PROGRAM FOLDER LINES COUNT` asks a session over a store the same questions as SQLite over `FOLDER.sqlite`, and PostgreSQL if a
server can be made, with the same spans.

LINES are the push lines that the store took in, of traces of 8 spans; COUNT is how many lines there are, and the first trace of some is looked
up. Each question is asked in turns, the least and the middle time of a question is told in milliseconds, and how many pages the session
read for it (by strace, in a session of its own, if it is installed). Store and databases are open and warm: what each opening takes is
told by itself."""
import json
import os
import re
import shutil
import sqlite3
import statistics
import subprocess
import sys
import tempfile
import time

import postgres

LOOK_UPS = 200
ROUNDS = 3

# What is asked of both: a name, the session's line, and the statement.
SEARCHES = [
    ("status = error, limit 20", "search limit=20 { status = error }",
     "select trace, min(start) s from span where trace in (select trace from span where status = 2) group by trace order by s desc limit 20"),
    ("a text that one span has", "search limit=20 { .url.path = \"%s\" }",
     "select distinct trace from span where attributes like '%%\"%s\"%%' limit 20"),
    ("nothing matches", "search limit=20 { duration > 1000s }", "select distinct trace from span where finish - start > 1000000000000 limit 20"),
    ("a thousandth of the time", "search limit=20 start=%d end=%d { status = error }",
     "select distinct trace from span where start >= %d and start < %d and status = 2 limit 20"),
]


class Session:
    """A session of the program over the store, which is open when this is made."""

    def __init__(self, program, folder, around=()):
        self.process = subprocess.Popen([*around, program, folder, "session"], stdin=subprocess.PIPE, stdout=subprocess.PIPE)
        self.ask("cut")

    def ask(self, line):
        self.process.stdin.write(line.encode() + b"\n")
        self.process.stdin.flush()
        return self.process.stdout.readline()

    def memory(self, which):
        """The memory that it holds (VmRSS), or the most that it held since `forget_peak` (VmHWM), in MB."""
        with open(f"/proc/{self.process.pid}/status", encoding="ascii") as file:
            return int(re.search(which + r":\s+(\d+)", file.read())[1]) / 1024

    def forget_peak(self):
        """Lets the most memory that it held be what it holds now, as proc(5) says of clear_refs."""
        with open(f"/proc/{self.process.pid}/clear_refs", "w", encoding="ascii") as file:
            file.write("5")

    def end(self):
        self.process.stdin.close()
        self.process.wait()


def timed(call):
    begun = time.perf_counter()
    call()
    return (time.perf_counter() - begun) * 1000


def told(name, vurnda, others, rest=""):
    text = f"{name:30} vurnda {min(vurnda):10.3f} ({statistics.median(vurnda):.3f}) ms"
    for other, times in others.items():
        text += f"  {other} {min(times):10.3f} ({statistics.median(times):.3f}): {min(times) / min(vurnda):.2f} times its speed"
    print(text + rest, flush=True)


class Databases:
    """SQLite, and PostgreSQL if a server can be made."""

    def __init__(self, folder, room):
        self.sqlite = sqlite3.connect(f"{folder}.sqlite")
        self.sqlite.execute("pragma mmap_size = 0")
        self.server = postgres.Server(f"{room}/postgres", f"{folder}.sqlite") if postgres.is_there() else None

    def ask(self, times, statement, *values):
        """Asks each of them, and adds what it took."""
        times.setdefault("SQLite", []).append(timed(lambda: self.sqlite.execute(statement, values).fetchall()))
        if self.server:
            for it in values:
                statement = statement.replace("?", f"'{it}'", 1)
            times.setdefault("PostgreSQL", []).append(self.server.ask(statement.replace("attributes like", "attributes::text like")))

    def end(self):
        self.sqlite.close()
        if self.server:
            self.server.end()


def pages_of(program, folder, lines):
    """How many pages a session reads for these lines, each by itself; none without strace."""
    if not shutil.which("strace"):
        return [None for _ in lines]
    found = []
    with tempfile.TemporaryDirectory() as room:
        for line in ["cut", *lines]:
            session = Session(program, folder, ["strace", "-f", "-e", "trace=pread64", "-o", f"{room}/calls"])
            session.ask(line)
            session.end()
            with open(f"{room}/calls", encoding="utf-8", errors="replace") as calls:
                read = [int(it) for it in re.findall(r"pread64\(.*\)\s+= (\d+)", calls.read())]
            found.append(sum((it + 4095) // 4096 for it in read))
    return [it - found[0] for it in found[1:]]


def main():
    program, folder, lines, count = sys.argv[1], sys.argv[2], sys.argv[3], int(sys.argv[4])
    ids, path, starts = [], None, []
    with open(lines, encoding="utf-8") as file:
        for number, line in enumerate(file):
            if number % max(count // LOOK_UPS, 1) == 0 and len(ids) < LOOK_UPS:
                ids.append(re.search(r'"traceId":"([0-9a-f]{32})"', line)[1])
                spans = json.loads(line.removeprefix("push "))["resourceSpans"][0]["scopeSpans"][0]["spans"]
                starts.append(int(spans[0]["startTimeUnixNano"]))
                path = path or next(it["value"]["stringValue"] for it in spans[0]["attributes"] if it["key"] == "url.path")
    absent = [f"{int(it, 16) ^ 1 << 64:032x}" for it in ids]
    low, high = min(starts), max(starts)
    window = (low + (high - low) // 2, low + (high - low) // 2 + (high - low) // 1000)

    opening = []
    for _ in range(ROUNDS):
        opening.append(timed(lambda: Session(program, folder).end()))
    told("an opening", opening, {})

    with tempfile.TemporaryDirectory() as room:
        os.chmod(room, 0o755)
        databases = Databases(folder, room)
        ask_all(program, folder, databases, ids, absent, {"a text that one span has": (path,), "a thousandth of the time": window})
        databases.end()


def ask_all(program, folder, databases, ids, absent, filled):
    """The questions, in turns."""
    session = Session(program, folder)
    for name, given in (("a look-up", ids), ("a look-up that finds nothing", absent)):
        ours, theirs = [], {}
        for _ in range(ROUNDS):
            for it in given:
                ours.append(timed(lambda: session.ask(f"trace {it}")))
                databases.ask(theirs, "select * from span where trace = ?", it)
        session.end()  # one process has a folder at a time
        pages = pages_of(program, folder, [f"trace {it}" for it in given[:10]])
        told(name, ours, theirs, "" if pages[0] is None else f"  {max(pages)} pages at most")
        session = Session(program, folder)
    for name, line, statement in SEARCHES:
        values = filled.get(name, ())
        line, statement = line % values if values else line, statement % values if values else statement
        session.end()
        session = Session(program, folder)
        opened = session.memory("VmRSS")
        session.forget_peak()
        ours, theirs = [], {}
        for _ in range(ROUNDS):
            ours.append(timed(lambda: session.ask(line)))
            databases.ask(theirs, statement)
        told(name, ours, theirs, f"  {session.memory('VmHWM') - opened:.0f} MB above the open store's {opened:.0f}")
    session.end()


main()
