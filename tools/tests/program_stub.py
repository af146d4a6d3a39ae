#!/usr/bin/env python3
"""Stands in for the program in tests of the checks: it answers the runs of examples/ (in EXAMPLES) with what is stored there."""
import os
import sys


def lines(name):
    with open(f"{os.environ['EXAMPLES']}/{name}", encoding="utf-8") as file:
        return file.read().splitlines(True)


def main(folder, word, *words):
    os.makedirs(folder, exist_ok=True)
    story = lines("collector.replies")
    if word == "ingest":
        replies, status = story[:7] if sys.stdin.readlines() else [], 0
    elif word == "search":
        replies, status = [story[7 + (">>" in words[-1]) + 2 * ("by(" in words[-1])]], 0
    elif word == "trace":
        replies, status = story[10:], 0
    else:
        asked = sys.stdin.readlines()
        name = min(("first", "search", "metrics", "quick-look"), key=lambda it: lines(f"{it}.txt") != asked)
        replies, status = lines(f"{name}.replies"), 7 * (name in ("search", "metrics"))
    sys.stdout.writelines(replies)
    return status


if __name__ == "__main__":
    sys.exit(main(*sys.argv[1:]))
