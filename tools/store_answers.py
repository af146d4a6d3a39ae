"""What the files of a trace store answer to a look-up and to a few counts, by docs/*-FORMAT.md, docs/OTLP.md and docs/TRACEQL.md,
without the program.

Nothing here is proved, and nothing here is the program's code: it is a second reading of the same pages, as tools/inspect is.
Each file that the list names has to be well formed.
"""
from __future__ import annotations

import json
from dataclasses import dataclass
from functools import lru_cache
from itertools import groupby
from typing import Callable, Dict, List

from block_format import check_block
from store_format import TEXT, WHOLE, Attributes, Row, Scope, SegmentFacts, Span, newer, read_segment, read_slot
from store_report import Folder

VALUES = {TEXT: "stringValue", WHOLE: "intValue"}
LAST = 2**64 - 1
COUNTED = f"metrics start=0 end={LAST} step={LAST} "
# Queries of which the pages say at once which spans they select: by columns, by texts, and by values that every row has to be made for.
QUERIES: Dict[str, Callable[[Span], bool]] = {
    "{ }": lambda it: True,
    "{ status = error && kind = server }": lambda it: (it.status, it.kind) == (2, 2),
    "{ duration > 500ms }": lambda it: 5 * 10**8 < it.end - it.start < 2**63,
    '{ name = "bank" }': lambda it: it.name == "bank",
    '{ resource.service.name = "svc-1" }': lambda it: ("service.name", TEXT, "svc-1") in it.resource,
    "{ span.code > 100 }": lambda it: any(key == "code" and kind == WHOLE and value > 100 for key, kind, value in it.attrs),
}


def counts() -> List[str]:
    """The queries, each as a line that asks how many spans it selects."""
    return [f"{COUNTED}{query} | count_over_time()" for query in QUERIES]


@dataclass
class Stored:
    """How many pushes a store has, and of each span the copy that came in first, by trace."""

    pushes: int
    traces: Dict[bytes, Dict[bytes, Row]]

    def reply(self, question: str) -> str:
        """The reply to `trace ID`, or to one of the queries that are counted."""
        if question.startswith(COUNTED):
            return self.count(QUERIES[question[len(COUNTED) :].removesuffix(" | count_over_time()")])
        spans = [row.span for row in self.traces.get(bytes.fromhex(question.split()[1]), {}).values()]
        spans.sort(key=lambda it: (it.start, it.id))
        return f"ok trace as_of={self.pushes} spans={len(spans)} {text_of(spans)}"

    def count(self, holds: Callable[[Span], bool]) -> str:
        spans = [row.span for rows in self.traces.values() for row in rows.values()]
        found = sum(holds(it) for it in spans if it.start < LAST)
        series = [{"by": [], "values": [{"intValue": str(found)}]}] if found else []
        text = json.dumps({"series": series}, separators=(",", ":"))
        return f"ok metrics as_of={self.pushes} series={len(series)} {text}"


@lru_cache(maxsize=16)
def rows_of(block: bytes, listed: int) -> List[Row]:
    """The rows of a block. Those that were read last are known."""
    rows: List[Row] = []
    check_block(block, listed, rows.append)
    return rows


def stored(path: str) -> Stored:
    """What a folder stores. A block has the first copies of its rows; of the log the rows from the floor on count."""
    folder, found = Folder(path), Stored(0, {})

    def keep(row: Row) -> None:
        rows = found.traces.setdefault(row.span.trace, {})
        first = rows.get(row.span.id)
        if first is None or (row.push, row.position) < (first.push, first.position):
            rows[row.span.id] = row

    lists = [read_slot(slot, folder.read(slot)) for slot in (0, 1)]
    counting = newer(*lists)
    if counting is None:
        return found
    body = lists[counting]
    for block in body.blocks:
        for row in rows_of(folder.read(block.file), block.rows):
            keep(row)
    for segment in body.segments:
        facts = SegmentFacts(segment.first)
        read_segment(folder.read(segment.file), facts, lambda row: keep(row) if row.push >= body.floor else None)
        found.pushes = segment.first + facts.records
    return found


# ---- OTLP/JSON


def text_of(spans: List[Span]) -> str:
    """The spans of a trace: a run of those with one resource is one member, and in it a run of those with one scope."""
    resources = []
    for resource, run in groupby(spans, lambda it: it.resource):
        scopes = [
            {"scope": scope_of(scope), "spans": [span_of(it) for it in inner]}
            for scope, inner in groupby(run, lambda it: it.scope)
        ]
        resources.append({"resource": {"attributes": attributes_of(resource)}, "scopeSpans": scopes})
    return json.dumps({"resourceSpans": resources}, sort_keys=True, separators=(",", ":"), ensure_ascii=False)


def attributes_of(attrs: Attributes) -> List[dict]:
    return [
        {"key": key, "value": {VALUES.get(kind, "boolValue"): str(value) if kind == WHOLE else value}}
        for key, kind, value in attrs
    ]


def scope_of(scope: Scope) -> dict:
    name, version, attrs = scope
    return {"name": name, "version": version, "attributes": attributes_of(attrs)}


def span_of(span: Span) -> dict:
    made = {
        "traceId": span.trace.hex(), "spanId": span.id.hex(), "parentSpanId": span.parent.hex() if span.parent else "",
        "name": span.name, "kind": span.kind, "startTimeUnixNano": str(span.start), "endTimeUnixNano": str(span.end),
        "status": {"code": span.status, "message": span.message}, "attributes": attributes_of(span.attrs),
    }
    if span.events:
        made["events"] = [
            {"timeUnixNano": str(time), "name": name, "attributes": attributes_of(attrs)} for time, name, attrs in span.events
        ]
    if span.links:
        made["links"] = [link_of(*link) for link in span.links]
    return made


def link_of(trace: bytes, span: bytes, attrs: Attributes) -> dict:
    return {"traceId": trace.hex(), "spanId": span.hex(), "attributes": attributes_of(attrs)}
