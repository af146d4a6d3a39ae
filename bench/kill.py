#!/usr/bin/env python3
"""Kills running sessions and opens their folder again: `kill.py [PROGRAM]` takes a built program, else the one that
`./vurnda` builds.

In each round a session pushes one span at a time into one folder and is killed (SIGKILL), in turns between two requests,
within a push, and while it opens. Then the folder is opened again: each push that was acknowledged has to be there, with the
number and the answer that it had, and of the one that wasn't acknowledged all or nothing. Meanwhile a second program on the
folder has to end with status 4 and to write nothing. A kill loses nothing of what the system was given, so this is no test
of syncs. It says how many kills of each kind there were, and ends with 1 where something isn't as it has to be.
ROUNDS=N asks for another count than 30."""
import json
import os
import random
import re
import shutil
import subprocess
import sys
import tempfile
import time

TOP = os.path.dirname(os.path.dirname(os.path.abspath(__file__)))
PROGRAM = os.path.abspath(sys.argv[1]) if len(sys.argv) > 1 else f"{TOP}/crates/vurnda/out/vurnda"
ROOM = tempfile.mkdtemp(prefix="vurnda-kill-")
IN_USE = 4


def expect(holds, *told):
    if not holds:
        sys.exit(f"kill.py: {' '.join(str(it) for it in told)}; the folder is left in {ROOM}")


def trace_of(number):
    return f"{number + 1:032x}"


def push_line(number):
    span = {
        "traceId": trace_of(number), "spanId": f"{number + 1:016x}", "parentSpanId": "", "name": f"span {number}", "kind": 2,
        "startTimeUnixNano": str(10**18 + number), "endTimeUnixNano": str(10**18 + 2 * number), "status": {"code": 1},
        "attributes": [{"key": "number", "value": {"intValue": str(number)}}],
    }
    scope = {"scope": {"name": "kill", "version": "1"}, "spans": [span]}
    resource = {"attributes": [{"key": "service.name", "value": {"stringValue": f"svc-{number % 3}"}}]}
    return "push " + json.dumps({"resourceSpans": [{"resource": resource, "scopeSpans": [scope]}]})


class Session:
    """A running session, which is asked one line at a time."""

    def __init__(self, folder):
        self.process = subprocess.Popen([PROGRAM, folder, "session"], stdin=subprocess.PIPE, stdout=subprocess.PIPE)

    def send(self, line):
        self.process.stdin.write(line.encode() + b"\n")
        self.process.stdin.flush()

    def reply(self):
        """The next reply, or None where the session has ended."""
        line = self.process.stdout.readline().decode()
        return line[:-1] if line.endswith("\n") else None

    def ask(self, line):
        self.send(line)
        reply = self.reply()
        expect(reply is not None, "no reply to", line[:60], "status", self.process.poll())
        return reply

    def kill(self):
        self.process.kill()
        self.process.wait()

    def end(self):
        self.process.stdin.close()
        status = self.process.wait()
        expect(status == 0, "a session ended with status", status)


def trace(session, number):
    """The count of pushes that a look-up of a push's trace tells, and the rest of its answer."""
    reply = session.ask(f"trace {trace_of(number)}")
    told = re.fullmatch(r"ok trace as_of=(\d+) (spans=\d+ .*)", reply)
    expect(told, "a look-up was answered", reply[:200])
    return int(told[1]), told[2]


def expect_kept(session, answers):
    """Each of these pushes, and no other, is there as it was answered before."""
    for number, answer in enumerate(answers):
        expect(trace(session, number) == (len(answers), answer), "push", number, "of", len(answers), "is missing or changed")


def build():
    """Lets `./vurnda` prove and build the program where it has to. Only the program itself is killed."""
    ran = subprocess.run([f"{TOP}/vurnda", f"{ROOM}/none", "session"], stdin=subprocess.DEVNULL)
    expect(ran.returncode == 0, "./vurnda ended with status", ran.returncode)


def second_is_refused(folder):
    second = subprocess.run([PROGRAM, folder, "session"], input=push_line(10**6).encode(), stdout=subprocess.PIPE)
    expect(second.returncode == IN_USE, "a second program ended with status", second.returncode)
    expect(second.stdout == b"", "a second program wrote", second.stdout[:200])


def push(session, answers):
    """Pushes a span and looks it up, and tells how many seconds the push took."""
    number = len(answers)
    begun = time.perf_counter()
    reply = session.ask(push_line(number))
    taken = time.perf_counter() - begun
    expect(reply == f"ok push {number} accepted=1 rejected=0 skipped=0", "push", number, "was answered", reply)
    count, answer = trace(session, number)
    expect(count == number + 1, count, "pushes are told after push", number)
    expect(answer.startswith("spans=1 ") and f'"span {number}"' in answer, "push", number, "was looked up as", answer)
    answers.append(answer)
    return taken


def kill_within(session, folder, answers, pause):
    """Kills the session so many seconds after it was sent a push, and tells whether that is there afterwards."""
    number = len(answers)
    session.send(push_line(number))
    time.sleep(pause)
    session.kill()
    acknowledged = session.reply()
    session = Session(folder)
    count, answer = trace(session, number)
    is_there = answer.startswith("spans=1 ")
    expect(is_there or answer.startswith("spans=0 "), "half a push is there:", answer)
    expect(is_there or acknowledged is None, "push", number, "was acknowledged and is lost")
    if is_there:
        answers.append(answer)
    expect_kept(session, answers)
    session.end()
    return is_there


def main():
    draw = random.Random(7)
    folder = f"{ROOM}/store"
    if len(sys.argv) < 2:
        build()
    answers = []  # of the look-ups of all pushes so far
    kills = {"between": 0, "within": 0, "opening": 0}
    found = 0
    for turn in range(int(os.environ.get("ROUNDS", "30"))):
        session = Session(folder)
        kind = list(kills)[turn % 3]
        kills[kind] += 1
        if kind == "opening":
            time.sleep(draw.random() / 50)
            session.kill()
            continue
        expect_kept(session, answers)
        for _ in range(draw.randrange(1, 4)):
            taken = push(session, answers)
        if turn == 0:
            second_is_refused(folder)
            push(session, answers)
        if kind == "between":
            session.kill()
        else:
            found += kill_within(session, folder, answers, taken * draw.random())
    session = Session(folder)
    expect_kept(session, answers)
    session.end()
    shutil.rmtree(ROOM)
    print(f"{len(answers)} pushes survived {kills['between']} kills between requests, {kills['opening']} while opening and"
          f" {kills['within']} within a push, which was there afterwards {found} times")


main()
