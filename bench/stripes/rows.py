#!/usr/bin/env python3
"""Writes 256 spans with five attributes each, the same every time: `rows.py stripe` a stripe of form 1 by docs/BLOCK-FORMAT.md,
`rows.py json` a line of OTLP/JSON. Eight spans are of one trace; there are three resources and one scope."""
import json
import random
import sys


def spans(draw):
    """The spans in block order: dicts with ids as bytes."""
    rows = []
    for trace in range(32):
        id = draw.getrandbits(127) | 1
        start = 1_700_000_000_000_000_000 + draw.randrange(10**15)
        for number in range(8):
            begin = start + draw.randrange(10**9)
            rows.append({
                "trace": id.to_bytes(16, "big"),
                "span": (8 * trace + number + 1).to_bytes(8, "big"),
                "parent": (8 * trace + draw.randrange(number) + 1).to_bytes(8, "big") if number else None,
                "name": draw.choice(["GET /checkout", "POST /payments", "SELECT orders", "reserve stock", "charge card"]),
                "kind": draw.randrange(6),
                "start": begin,
                "end": begin + draw.randrange(10**9),
                "status": draw.randrange(3),
                "service": f"svc-{draw.randrange(3)}",
                "attributes": [
                    ("http.request.method", draw.choice(["GET", "POST"])),
                    ("http.response.status_code", 200 + 100 * draw.randrange(4)),
                    ("server.address", f"10.0.{draw.randrange(256)}.{draw.randrange(256)}"),
                    ("url.path", f"/orders/{draw.randrange(10**6)}"),
                    ("retry", bool(draw.randrange(2))),
                ],
            })
    return sorted(rows, key=lambda row: (row["trace"], row["start"], row["span"]))


def var(number):
    out = bytearray()
    while number > 127:
        out.append(number & 127 | 128)
        number >>= 7
    return bytes(out) + bytes([number])


def stripe(rows):
    texts = {}

    def text(word):
        return var(texts.setdefault(word, len(texts)))

    def attributes(pairs):
        out = var(len(pairs))
        for key, value in pairs:
            out += text(key)
            if isinstance(value, bool):
                out += bytes([2, value])
            elif isinstance(value, int):
                out += b"\1" + var(2 * value)
            else:
                out += b"\0" + text(value)
        return out

    services = list(dict.fromkeys(row["service"] for row in rows))
    resources = [attributes([("service.name", it), ("host.name", "node-7")]) for it in services]
    body = var(len(resources)) + b"".join(resources)
    body += var(1) + text("lib") + text("1.0") + attributes([])
    body += var(len(rows))
    for field in (
        lambda n, row: row["trace"],
        lambda n, row: row["span"],
        lambda n, row: b"\1" + row["parent"] if row["parent"] else b"\0",
        lambda n, row: var(0),
        lambda n, row: var(n),
        lambda n, row: text(row["name"]),
        lambda n, row: bytes([row["kind"]]),
        lambda n, row: row["start"].to_bytes(8, "little"),
        lambda n, row: row["end"].to_bytes(8, "little"),
        lambda n, row: bytes([row["status"]]),
        lambda n, row: text(""),
        lambda n, row: var(services.index(row["service"])),
        lambda n, row: var(0),
        lambda n, row: attributes(row["attributes"]),
    ):
        for n, row in enumerate(rows):
            body += field(n, row)
    words = [word.encode() for word in texts]
    content = var(len(words)) + b"".join(var(len(word)) + word for word in words) + body
    out = len(content).to_bytes(8, "little") + content
    return out + bytes(-len(out) % 4096)


def attribute(key, value):
    if isinstance(value, bool):
        return {"key": key, "value": {"boolValue": value}}
    kind = "intValue" if isinstance(value, int) else "stringValue"
    return {"key": key, "value": {kind: str(value)}}


def line(rows):
    groups = {}
    for row in rows:
        groups.setdefault(row["service"], []).append({
            "traceId": row["trace"].hex(),
            "spanId": row["span"].hex(),
            "parentSpanId": row["parent"].hex() if row["parent"] else "",
            "name": row["name"],
            "kind": row["kind"],
            "startTimeUnixNano": str(row["start"]),
            "endTimeUnixNano": str(row["end"]),
            "status": {"code": row["status"]},
            "attributes": [attribute(key, value) for key, value in row["attributes"]],
        })
    return json.dumps({"resourceSpans": [{
        "resource": {"attributes": [attribute("service.name", service), attribute("host.name", "node-7")]},
        "scopeSpans": [{"scope": {"name": "lib", "version": "1.0"}, "spans": spans}],
    } for service, spans in groups.items()]}, separators=(",", ":")).encode()


if __name__ == "__main__":
    rows = spans(random.Random(7))
    sys.stdout.buffer.write(stripe(rows) if sys.argv[1] == "stripe" else line(rows))
