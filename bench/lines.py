#!/usr/bin/env python3
"""Writes lines of OTLP/JSON: `lines.py SPANS LINES [TRACES]` gives LINES lines, each of TRACES traces (1) of SPANS spans, the same every time.

The traces begin at random within 11 days, their spans within two seconds of that, and one span in fifty fails. Of paths there are a million, and
as many as spans if these are more."""
import json
import random
import sys


def attribute(key, value):
    kind = "intValue" if isinstance(value, int) else "stringValue"
    return {"key": key, "value": {kind: str(value)}}


def span(draw, trace, begun, number, paths):
    start = begun + draw.randrange(2 * 10**9)
    return {
        "traceId": trace,
        "spanId": f"{number + 1:016x}",
        "parentSpanId": f"{draw.randrange(number) + 1:016x}" if number else "",
        "name": draw.choice(["GET /checkout", "POST /payments", "SELECT orders", "reserve stock", "charge card"]),
        "kind": draw.randrange(6),
        "startTimeUnixNano": str(start),
        "endTimeUnixNano": str(start + draw.randrange(10**9)),
        "status": {"code": draw.randrange(2) if draw.randrange(50) else 2},
        "attributes": [
            attribute("http.request.method", draw.choice(["GET", "POST"])),
            attribute("http.response.status_code", 200 + 100 * draw.randrange(4)),
            attribute("server.address", f"10.0.{draw.randrange(256)}.{draw.randrange(256)}"),
            attribute("url.path", f"/orders/{draw.randrange(paths)}"),
        ],
    }


def traced(draw, spans, paths):
    """A trace, under a resource of its own."""
    trace = f"{draw.getrandbits(128) | 1:032x}"
    resource = {"attributes": [attribute("service.name", f"svc-{draw.randrange(3)}"), attribute("host.name", "node-7")]}
    scope = {"name": "lib", "version": "1.0"}
    begun = 1_700_000_000_000_000_000 + draw.randrange(10**15)
    inner = {"scope": scope, "spans": [span(draw, trace, begun, i, paths) for i in range(spans)]}
    return {"resource": resource, "scopeSpans": [inner]}


draw = random.Random(7)
spans, lines, traces = (int(it) for it in [*sys.argv[1:], "1"][:3])
paths = max(10**6, spans * lines * traces)
for _ in range(lines):
    print("push " + json.dumps({"resourceSpans": [traced(draw, spans, paths) for _ in range(traces)]}, separators=(",", ":")))
