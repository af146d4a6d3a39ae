"""Draws replies as a page of HTML. The spans go into it as JSON, and its script draws those rows that are in sight."""
from __future__ import annotations

import base64
import hashlib
import html
import json
import re
from pathlib import Path
from typing import Iterable, Iterator

from show_chart import chart
from show_replies import (
    Event, Found, Hit, Link, Metrics, Part, Passed, Row, Search, Trace, Value,
    clean, duration, greatest, moment, offset,
)

TEMPLATE = Path(__file__).resolve().parent / "show.html"


def value_data(values: list[Value]) -> list[list[str]]:
    return [[value.key, value.text, "text" if value.is_text else "other"] for value in values]


def event_data(event: Event, start: int) -> dict:
    told, attributes = event.told(), value_data(event.attributes)
    return {"name": event.name, "told": told, "at": offset(event.at, start), "attributes": attributes}


def link_data(link: Link) -> dict:
    return {"trace": link.trace_id, "span": link.span_id, "attributes": value_data(link.attributes)}


class Shared:
    """Lists that many spans share, each once: `place` tells where one stands."""

    def __init__(self) -> None:
        self.all: list[object] = []
        self.places: dict[str, int] = {}

    def place(self, what: object) -> int:
        key = json.dumps(what)
        if key not in self.places:
            self.places[key] = len(self.all)
            self.all.append(what)
        return self.places[key]


def span_data(row: Row, trace: Trace, resources: Shared, scopes: Shared) -> dict:
    span, whole = row.span, max(trace.length, 1)
    scope = {"name": span.scope.name, "version": span.scope.version, "attributes": value_data(span.scope.attributes)}
    data = {
        "depth": row.depth, "name": span.name, "service": span.service, "kind": span.kind,
        "at": round((span.start - trace.start) / whole, 6), "share": round(max(span.end - span.start, 0) / whole, 6),
        "took": duration(span.end - span.start), "offset": offset(span.start, trace.start) if span.start else "",
        "start": moment(span.start), "end": moment(span.end), "code": span.code, "message": span.message,
        "id": span.span_id, "parent": span.parent_id, "notes": span.notes,
        "attributes": value_data(span.attributes), "events": [event_data(event, trace.start) for event in span.events],
        "links": [link_data(link) for link in span.links],
        "resource": resources.place(value_data(span.resource)), "scope": scopes.place(scope),
    }
    return {name: it for name, it in data.items() if it not in ("", [])}


def trace_data(trace: Trace) -> dict:
    resources, scopes = Shared(), Shared()
    spans = [span_data(row, trace, resources, scopes) for row in trace.rows]
    return {
        "id": trace.trace_id, "told": trace.told(), "from": moment(trace.start), "spans": spans,
        "ticks": ["0"] + [duration(trace.length * quarter // 4) for quarter in range(1, 5)],
        "resources": resources.all, "scopes": scopes.all,
    }


def element(tag: str, text: str, kind: str = "") -> str:
    named = f' class="{kind}"' if kind else ""
    return f"<{tag}{named}>{html.escape(text)}</{tag}>"


def isolated(text: str) -> str:
    """A text in its own direction of writing."""
    return element("bdi", text)


def hit_page(hit: Hit) -> str:
    fields = (f'<span class="field">{isolated(it.key)}={isolated(it.quoted())}</span> ' for it in hit.fields)
    return (f"<tr>{element('td', hit.span_id, 'id')}<td>{isolated(hit.name)}</td>"
            f"{element('td', duration(hit.length), 'number')}<td>{''.join(fields)}</td></tr>")


def found_page(found: Found) -> Iterator[str]:
    trace_id = html.escape(found.trace_id)
    yield f'<article><h3>{isolated(found.root)}</h3><p><a class="id" href="#trace-{trace_id}">{trace_id}</a>'
    yield f"{html.escape(duration(found.length))}, from {moment(found.start)}</p>"
    for group in found.sets:
        by = f"by {', '.join(isolated(value.quoted()) for value in group.by)}: " if group.by else ""
        yield f"<h4>{by}{group.told()}</h4><table>"
        yield from map(hit_page, group.hits)
        yield "</table>"
    yield "</article>"


def search_page(search: Search) -> Iterator[str]:
    yield element("h2", search.told())
    for found in search.traces:
        yield from found_page(found)


def metrics_page(metrics: Metrics) -> Iterator[str]:
    yield element("h2", metrics.told())
    shown = metrics.shown()
    whole = greatest(shown)
    for series in shown:
        yield f"<h3>by {', '.join(map(isolated, series.head()))}</h3>" if series.by else element("h3", "all spans")
        yield from chart(series.numbers, whole)
    if metrics.left_out():
        yield element("p", metrics.left_out())


def other_page(lines: list[str]) -> str:
    rows = (element("span", line, "refused" if line.startswith("refused") else "") for line in lines)
    return "<section><pre>" + "\n".join(rows) + "</pre></section>"


def page_sections(parts: Iterable[Part], traces: list[dict]) -> Iterator[str]:
    """The sections of a page in the order of the replies. What its script draws is put into `traces`."""
    others: list[str] = []
    for part in parts:
        if isinstance(part, Passed):
            others.append(clean(part.line.decode(errors="replace").rstrip("\r\n")))
            continue
        if others:
            yield other_page(others)
            others = []
        if isinstance(part, Trace) and part.rows:
            yield f'<section class="trace" data-trace="{len(traces)}"></section>'
            traces.append(trace_data(part))
        elif isinstance(part, Search):
            yield '<section class="search">' + "\n".join(search_page(part)) + "</section>"
        elif isinstance(part, Metrics):
            yield '<section class="metrics">' + "\n".join(metrics_page(part)) + "</section>"
        else:
            yield other_page([part.no_spans()] if isinstance(part, Trace) else part.told())
    if others:
        yield other_page(others)


def page(parts: Iterable[Part]) -> str:
    """The page, in which no script runs but the template's own."""
    template = TEMPLATE.read_text(encoding="utf-8")
    script = template.partition("<script>")[2].partition("</script>")[0]
    traces: list[dict] = []
    sections = "\n".join(page_sections(parts, traces)) or "<section><p>There was no reply.</p></section>"
    root = traces[0]["spans"][0] if len(traces) == 1 else {}
    named = ": ".join(root[what] for what in ("service", "name") if what in root)
    filled = {
        "TITLE": html.escape(named or "Replies"),
        "SCRIPT_HASH": base64.b64encode(hashlib.sha256(script.encode()).digest()).decode(),
        "SECTIONS": sections,
        "DATA": json.dumps(traces, separators=(",", ":")).replace("<", "\\u003c"),
    }
    return re.sub(r"@@([A-Z_]+)@@", lambda match: filled[match[1]], template)
