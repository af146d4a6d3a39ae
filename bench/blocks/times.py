#!/usr/bin/env python3
"""`times.py ROUNDS COUNT FOLDER` runs FOLDER/program and FOLDER/insert over COUNT rows in turns, and tells of each the least processor
time of all rounds, user and system, less that of its run which only makes the rows, and the most memory that it had at once. Each
run is told on standard error."""
import os
import subprocess
import sys

rounds, count, folder = int(sys.argv[1]), int(sys.argv[2]), sys.argv[3]
given, block, base = f"{folder}/given", f"{folder}/block", f"{folder}/base"
READER = [f"{folder}/insert", f"{folder}/lines", str(count)]
# Each has the letter that the program begins with, or none, its words, and whose time is taken from its own.
RUNS = {
    "making rows": (b"m", [f"{folder}/program"], None),
    "building": (b"b", [f"{folder}/program"], "making rows"),
    "building and writing": (b"w", [f"{folder}/program"], "making rows"),
    "building and checking": (b"c", [f"{folder}/program"], "making rows"),
    "reading lines": (None, READER, None),
    "SQLite": (None, [*READER, base], "reading lines"),
}


def run(letter, words):
    """The user time, the system time and the most memory of a run, in seconds and in bytes."""
    if letter:
        with open(given, "r+b") as file:
            file.write(letter)
    with open(given, "rb") as input, open(block, "wb") as output:
        child = subprocess.Popen(words, stdin=input, stdout=output)
        _, status, usage = os.wait4(child.pid, 0)
    child.returncode = os.waitstatus_to_exitcode(status)
    if child.returncode:
        sys.exit(f"times.py: {words[0]} ended with {child.returncode}")
    if letter == b"w":
        sizes["block"] = os.path.getsize(block)
    return usage.ru_utime, usage.ru_stime, 1024 * usage.ru_maxrss


sizes, found = {}, {name: [] for name in RUNS}
for _ in range(rounds):
    for name, (letter, words, _) in RUNS.items():
        found[name].append(run(letter, words))
        print(f"{name}: {found[name][-1]}", file=sys.stderr, flush=True)
sizes["database"] = os.path.getsize(base)
both = {name: min(user + system for user, system, _ in them) for name, them in found.items()}
user = {name: min(user for user, _, _ in them) for name, them in found.items()}
print(f"{count} rows; {sizes['block']} bytes of a block, {sizes['database']} of a database; least of {rounds} runs")
for name, (_, _, less) in RUNS.items():
    memory = f"{max(most for _, _, most in found[name]) / 1e6:.0f} MB at most"
    if not less:
        print(f"{name}: {both[name]:.2f} s, user {user[name]:.2f} s, {memory}")
        continue
    own, own_user = both[name] - both[less], user[name] - user[less]
    base_own, base_user = both["SQLite"] - both["reading lines"], user["SQLite"] - user["reading lines"]
    print(
        f"{name}: {own:.2f} s, {count / own:.0f} rows/s, {base_own / own:.2f} times SQLite's speed;"
        f" user {own_user:.2f} s, {base_user / own_user:.2f} times; {memory}"
    )
