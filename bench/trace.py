#!/usr/bin/env python3
"""Writes pushes of one trace: `trace.py SHAPE SPANS` gives SPANS spans in one chain, one star or one ring of parents."""
import json
import sys

shape, count = sys.argv[1], int(sys.argv[2])


def parent(i):
    if i == 1:
        return count if shape == "ring" else None
    return 1 if shape == "star" else i - 1


def span(i):
    above = parent(i)
    return {
        "traceId": f"{7:032x}",
        "spanId": f"{i:016x}",
        "parentSpanId": f"{above:016x}" if above else "",
        "name": "x",
        "startTimeUnixNano": str(i),
        "endTimeUnixNano": str(i + 1),
    }


for first in range(1, count + 1, 16000):
    spans = [span(i) for i in range(first, min(first + 16000, count + 1))]
    print("push " + json.dumps({"resourceSpans": [{"scopeSpans": [{"spans": spans}]}]}, separators=(",", ":")))
