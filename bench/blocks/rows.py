#!/usr/bin/env python3
"""`rows.py COUNT FOLDER` writes COUNT rows with five attributes each, the same every time, as stripes of 256 rows one after another
(`stripes`) and as lines of fields with tabs between them (`lines`). They are made as those of ../stripes/rows.py: eight spans are of
one trace, and the traces come in no order."""
import json
import os
import random
import sys

here = os.path.dirname(os.path.abspath(__file__))
sys.path.insert(0, os.path.join(here, "..", "stripes"))
import rows as one_stripe

SCOPE = '{"name":"lib","version":"1.0"}'


def line(row):
    """The columns of a row, with its lists as JSON."""
    resource = json.dumps({"service.name": row["service"], "host.name": "node-7"}, separators=(",", ":"))
    return "\t".join((
        row["trace"].hex(), row["span"].hex(), row["parent"].hex() if row["parent"] else "", row["name"], str(row["kind"]),
        str(row["start"]), str(row["end"]), str(row["status"]), "",
        json.dumps(dict(row["attributes"]), separators=(",", ":")), resource, SCOPE,
    )) + "\n"


count, folder = int(sys.argv[1]), sys.argv[2]
draw = random.Random(7)
with open(f"{folder}/stripes", "wb") as stripes, open(f"{folder}/lines", "w", encoding="utf-8") as lines:
    for _ in range(count // 256):
        spans = one_stripe.spans(draw)
        stripes.write(one_stripe.stripe(spans))
        lines.writelines(map(line, spans))
