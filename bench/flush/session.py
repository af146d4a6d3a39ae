#!/usr/bin/env python3
"""`session.py PROGRAM FOLDER SPANS` runs a session of the program over the push lines of standard input, 64 of them joined to
one push, and has it cut and flush whenever SPANS spans are held, and at the end. Of each flush it prints how many spans it took,
the seconds from sending `cutall` to the reply to `flush`, and the processor time that the session took meanwhile."""
import itertools
import json
import os
import re
import subprocess
import sys
import time

TICKS = os.sysconf("SC_CLK_TCK")
JOINED = 64


class Session:
    """A running session, which is asked one line at a time."""

    def __init__(self, program, folder):
        self.process = subprocess.Popen([program, folder, "session"], stdin=subprocess.PIPE, stdout=subprocess.PIPE)

    def ask(self, line, wanted):
        """The number in the reply."""
        self.process.stdin.write(line.encode() + b"\n")
        self.process.stdin.flush()
        reply = self.process.stdout.readline().decode()
        told = re.match(wanted, reply)
        if not told:
            sys.exit(f"session.py: {line[:60]} was answered {reply[:200]!r}, status {self.process.poll()}")
        return int(told[1])

    def spent(self):
        """The processor time of the session so far, user and system."""
        with open(f"/proc/{self.process.pid}/stat", encoding="utf-8") as stat:
            user, system = stat.read().rpartition(")")[2].split()[11:13]
        return (int(user) + int(system)) / TICKS

    def flush(self, spans):
        spent, begun = self.spent(), time.perf_counter()
        moved = self.ask("cutall", r"ok cutall moved=(\d+)\n")
        rows = self.ask("flush", r"ok flush rows=(\d+)\n")
        taken = time.perf_counter() - begun
        if moved != spans or rows != spans:
            sys.exit(f"session.py: of {spans} spans {moved} were cut and {rows} flushed")
        print(spans, f"{taken:.6f} {self.spent() - spent:.2f}", flush=True)

    def end(self):
        self.process.stdin.close()
        status = self.process.wait()
        if status:
            sys.exit(f"session.py: the session ended with status {status}")


def joined(lines):
    """One push line of several."""
    resources = [it for line in lines for it in json.loads(line.removeprefix("push "))["resourceSpans"]]
    return "push " + json.dumps({"resourceSpans": resources}, separators=(",", ":"))


def main():
    program, folder, most = sys.argv[1], sys.argv[2], int(sys.argv[3])
    session = Session(program, folder)
    held = 0
    while lines := list(itertools.islice(sys.stdin, JOINED)):
        held += session.ask(joined(lines), r"ok push \d+ accepted=(\d+) rejected=0 skipped=0\n")
        if held >= most:
            session.flush(held)
            held = 0
    if held:
        session.flush(held)
    session.end()


main()
