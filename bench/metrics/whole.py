#!/usr/bin/env python3
"""Checks the replies of metrics.sh: `whole.py STEP < REPLIES` ends with 1 and a word if an answer isn't over all 100,000 spans."""
import json
import re
import sys
from fractions import Fraction

SPANS, BUCKETS = 100_000, 1_000


def spans_of(search):
    return sum(len(it["spans"]) for trace in search["traces"] for it in trace["spanSets"])


def spans_counted(metrics, step):
    """The rates of all buckets, as the number of spans that they tell of."""
    values = [value for series in metrics["series"] for it in series["values"] for value in it.values()]
    if any(len(series["values"]) != BUCKETS for series in metrics["series"]):
        sys.exit(f"metrics.sh: a series hasn't {BUCKETS} buckets")
    return sum(map(Fraction, values)) * step / 10**9


def main():
    step, asked = int(sys.argv[1]), 0
    for line in sys.stdin:
        if line.startswith("ok push"):
            continue
        answer = re.fullmatch(r"ok (search|metrics) as_of=\d+ \w+=\d+ (\{.*\})\n", line)
        if not answer:
            sys.exit(f"metrics.sh: no answer: {line[:200].rstrip()}")
        told = json.loads(answer[2])
        spans = spans_of(told) if answer[1] == "search" else spans_counted(told, step)
        if spans != SPANS:
            sys.exit(f"metrics.sh: {answer[1]} tells of {spans} spans and not of {SPANS}")
        asked += 1
    if asked != 4:
        sys.exit(f"metrics.sh: {asked} questions were answered and not 4")


main()
