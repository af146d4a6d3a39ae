"""Draws replies for a terminal."""
from __future__ import annotations

from dataclasses import dataclass
from fractions import Fraction
from itertools import cycle, groupby
from typing import BinaryIO, Iterable, Iterator

from show_replies import (
    GUIDES, Found, Metrics, Number, Part, Passed, Row, Search, Series, Span, Summary, Trace,
    clean, count, duration, fit, greatest, moment, number, offset, one_line, pad, width_of,
)

KIND, LENGTH = 8, 12  # how many columns a kind and a duration take at most
DETAILS = 5  # how many events, and how many links, of a span are drawn
ZEROS = 10  # so many buckets of nothing, one after another, are one line
EIGHTHS = ("", "▏", "▎", "▍", "▌", "▋", "▊", "▉")
RED, BOLD, DIM = "31", "1", "2"
SERVICE_COLOURS = ("36", "33", "34", "32", "35", "96", "93", "94", "92", "95")


@dataclass(frozen=True)
class Look:
    """How to draw: in how many columns, in colour or not, and whether with all attributes."""

    width: int = 80
    colour: bool = False
    full: bool = False

    def paint(self, text: str, code: str) -> str:
        return f"\x1b[{code}m{text}\x1b[0m" if self.colour and text.strip() else text


@dataclass(frozen=True)
class Columns:
    """The widths of a waterfall's columns. Between the length and the bars stands the mark of a failure."""

    service: int
    name: int
    kind: int
    length: int
    bars: int
    indent: int  # how much of the name's column guides may take


def columns_of(trace: Trace, width: int) -> Columns:
    spans = [row.span for row in trace.rows]
    service = min(max(width_of(span.service) for span in spans), width // 6)
    kind = min(max(len(span.kind) for span in spans), KIND)
    length = min(max(len(duration(span.end - span.start)) for span in spans), LENGTH)
    room = width - (service + 1 if service else 0) - (kind + 1 if kind else 0) - length - 4
    indent = max(2, min(room // 6 * 2, GUIDES))
    names = (min(2 * row.depth, indent) + width_of(row.span.name) for row in trace.rows)
    name = min(max(names), room * 11 // 20)
    return Columns(service, name, kind, length, room - name, indent)


def tree_name(row: Row, indent: int) -> str:
    """A span's name after its guides; of a deep span the depth and the last guides stand there."""
    guides = row.guides
    if 2 * row.depth > indent:
        depth = f"{row.depth}…"
        guides = depth + guides[len(depth) - indent:] if len(depth) < indent else depth
    return guides + row.span.name


def bar_of(span: Span, start: int, length: int, columns: int) -> str:
    """A span's bar on the trace's time scale: blank columns and then what is drawn."""
    first = min((span.start - start) * columns // max(length, 1), columns - 1)
    if span.end < span.start:
        return " " * first + "‹"
    share = (span.end - span.start) / max(length, 1) * columns
    return " " * first + ("█" * min(round(share), columns - first) if share >= 0.75 else "▏")


def scale(length: int, columns: int) -> str:
    """The head of the bars: no time, half and whole, in so many columns."""
    half, whole = duration(length // 2), duration(length)
    room = columns - len(whole)
    if room < columns // 2 + len(half) + 1:
        return "0" + whole.rjust(columns - 1) if room > 1 else fit(whole, columns).rjust(columns)
    return ("0".ljust(columns // 2) + half).ljust(room) + whole


def details(span: Span, start: int, full: bool) -> Iterator[tuple[str, str]]:
    """The lines under a span, each with its colour."""
    if span.message:
        yield ("✗ " if span.failed else "") + one_line(span.message), RED if span.failed else DIM
    for note in span.notes:
        yield f"? {note}", DIM
    for attribute in span.attributes if full else []:
        yield str(attribute), DIM
    for event in span.events if full else span.events[:DETAILS]:
        mark, colour = ("!", RED) if event.name == "exception" else ("•", DIM)
        yield f"{mark} {event.told()} ({offset(event.at, start)})", colour
        for attribute in event.attributes if full else []:
            yield from ((f"  {line}", DIM) for line in f"{attribute.key}={attribute.text}".splitlines())
    for link in span.links if full else span.links[:DETAILS]:
        yield " ".join([f"→ links to span {link.span_id} of trace {link.trace_id}", *map(str, link.attributes)]), DIM
    for what, all_of in (("event", span.events), ("link", span.links)):
        if not full and len(all_of) > DETAILS:
            yield f"and {count(len(all_of) - DETAILS, 'more ' + what)}", DIM


def row_lines(row: Row, trace: Trace, place: Columns, colour: str, look: Look) -> Iterator[str]:
    span = row.span
    service = look.paint(pad(span.service, place.service), colour) + " " if place.service else ""
    name = pad(tree_name(row, place.indent), place.name)
    name = look.paint(name, RED) if span.failed else name
    kind = look.paint(pad(span.kind, place.kind), DIM) + " " if place.kind else ""
    mark = look.paint("✗", RED) if span.failed else " "
    bar = look.paint(bar_of(span, trace.start, trace.length, place.bars), colour)
    took = fit(duration(span.end - span.start), place.length).rjust(place.length)
    yield f"{service}{name} {kind}{took} {mark} {bar}".rstrip()
    before = " " * (place.service + 1 if place.service else 0) + row.below[-place.indent:]
    for text, code in details(span, trace.start, look.full):
        yield before + look.paint(text if look.full else fit(text, look.width - len(before)), code)


def trace_lines(trace: Trace, look: Look) -> Iterator[str]:
    if not trace.rows:
        yield trace.no_spans()
        return
    place = columns_of(trace, look.width)
    services = dict.fromkeys(row.span.service for row in trace.rows)
    colours = dict(zip(services, cycle(SERVICE_COLOURS)))
    yield look.paint(fit(f"trace {trace.trace_id}: {trace.told()}", look.width), BOLD)
    yield look.paint(fit(f"from {moment(trace.start)}", look.width), DIM)
    yield look.paint(scale(trace.length, place.bars).rjust(look.width), DIM)
    for row in trace.rows:
        yield from row_lines(row, trace, place, colours[row.span.service], look)


def found_lines(found: Found, look: Look) -> Iterator[str]:
    yield ""
    told = f"{found.trace_id}  {found.root}"
    yield look.paint(fit(told, look.width), BOLD)
    yield look.paint(f"  {duration(found.length)}, from {moment(found.start)}", DIM)
    longest = max((width_of(hit.name) for group in found.sets for hit in group.hits), default=0)
    name = min(longest, max(look.width // 3, 12))
    for group in found.sets:
        by = f"by {', '.join(value.quoted() for value in group.by)}: " if group.by else ""
        yield fit(f"  {by}{group.told()}", look.width)
        for hit in group.hits:
            fields = "  ".join(map(str, hit.fields))
            line = f"    {hit.span_id}  {pad(hit.name, name)}  {duration(hit.length):>9}  {fields}".rstrip()
            yield line if look.full else fit(line, look.width)


def search_lines(search: Search, look: Look) -> Iterator[str]:
    yield look.paint(search.told(), BOLD)
    for found in search.traces:
        yield from found_lines(found, look)


def share_bar(value: Number, whole: Fraction, columns: int) -> str:
    """A bar as long as the value's share of so many columns. Of each value above 0 something is seen."""
    eighths = max(round(value * columns * 8 / whole), 1) if value else 0
    return "█" * (eighths // 8) + EIGHTHS[eighths % 8]


def bucket_rows(series: Series, look: Look) -> list[tuple[str, Number]]:
    """What is drawn of a series, line by line: which buckets, from 1, and their number."""
    rows, first = [], 1
    for value, run in groupby(series.numbers):
        end = first + len(list(run))
        if value == 0 and end - first >= ZEROS and not look.full:
            rows.append((f"{first}-{end - 1}", value))
        else:
            rows += [(str(bucket), value) for bucket in range(first, end)]
        first = end
    return rows


def metrics_lines(metrics: Metrics, look: Look) -> Iterator[str]:
    yield look.paint(fit(metrics.told(), look.width), BOLD)
    shown = metrics.series if look.full else metrics.shown()
    rows = [bucket_rows(series, look) for series in shown]
    bucket = max((len(where) for of_one in rows for where, _ in of_one), default=0)
    size = max((len(number(value)) for of_one in rows for _, value in of_one), default=0)
    whole, columns = greatest(shown), look.width - bucket - size - 6
    for series, of_one, colour in zip(shown, rows, cycle(SERVICE_COLOURS)):
        yield ""
        yield fit(f"by {', '.join(series.head())}" if series.by else "all spans", look.width)
        for where, value in of_one:
            bar = look.paint(share_bar(value, whole, columns), colour)
            yield f"  {where:>{bucket}}  {number(value):>{size}}  {bar}".rstrip()
    if not look.full and metrics.left_out():
        yield ""
        yield metrics.left_out()


def part_lines(part: Trace | Search | Metrics | Summary, look: Look) -> Iterator[str]:
    if isinstance(part, Trace):
        return trace_lines(part, look)
    if isinstance(part, Search):
        return search_lines(part, look)
    if isinstance(part, Metrics):
        return metrics_lines(part, look)
    return (look.paint(line, RED) if line.startswith("refused") else line for line in part.told())


def draw_text(parts: Iterable[Part], look: Look, out: BinaryIO, on_terminal: bool) -> None:
    """Writes each part as soon as it is read. A blank line stands before and after what is drawn."""
    before: Part | None = None
    for part in parts:
        passes = isinstance(part, Passed)
        if before is not None and not (passes and isinstance(before, Passed)):
            out.write(b"\n")
        if passes:
            out.write(clean(part.line.decode(errors="replace")).encode() if on_terminal else part.line)
        else:
            out.writelines((line + "\n").encode() for line in part_lines(part, look))
        out.flush()
        before = part
