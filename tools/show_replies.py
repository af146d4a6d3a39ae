"""Reads the replies of the program: traces with their tree, searches, metrics, runs of replies to pushes and upkeep."""
from __future__ import annotations

import json
import re
import sys
import time
import unicodedata
from collections import Counter
from dataclasses import dataclass, field
from datetime import datetime, timedelta, timezone
from fractions import Fraction
from functools import lru_cache
from typing import Iterable, Iterator, Union

# Numbers that the replies use, and how much is told.

KINDS = ("", "internal", "server", "client", "producer", "consumer")
FAILED = 2  # the status code of a span that failed
REFUSALS = 10  # how many texts of refusals a summary tells
SERIES_SHOWN = 10  # of the series of metrics, how many are drawn
MARKS_SHOWN = 8  # of the marks that stand on one character, how many are drawn
GUIDES = 64  # how many columns of a deep span's guides are kept

# Texts. All that a reply says goes through `clean` as it is read, so nothing below needs to escape for a terminal.


def is_safe(char: str) -> bool:
    """Whether a character may reach a terminal or a page as it is: none that controls, reorders or can't be written."""
    return char in "\n\t\u200c\u200d" or unicodedata.category(char) not in ("Cc", "Cf", "Cs", "Zl", "Zp")


def escaped(char: str) -> str:
    code = ord(char)
    return f"\\x{code:02x}" if code < 0x100 else f"\\u{code:04x}" if code < 0x10000 else f"\\U{code:08x}"


def clean(text: str) -> str:
    """The text with each unsafe character as an escape such as \\x1b. Line feeds and tabs stay."""
    if text.isprintable():
        return text
    return "".join(char if is_safe(char) else escaped(char) for char in text.replace("\r\n", "\n"))


def one_line(text: str) -> str:
    return text.replace("\n", "\\n").replace("\t", "\\t")


def word(text: str) -> str:
    """A name, a key or an id, cleaned, in one line."""
    return one_line(clean(text))


@lru_cache(maxsize=4096)
def char_width(char: str) -> int:
    """How many columns of a terminal a character takes."""
    if unicodedata.category(char) in ("Mn", "Me", "Cf") or "\u1160" <= char <= "\u11ff":
        return 0
    return 2 if unicodedata.east_asian_width(char) in "WF" else 1


def width_of(text: str) -> int:
    return len(text) if text.isascii() else sum(map(char_width, text))


def fit(text: str, columns: int) -> str:
    """The text in at most so many columns; one that is longer ends with an ellipsis."""
    if text.isascii() and len(text) <= columns:
        return text
    kept, used, marks, room = [], 0, 0, columns if width_of(text) <= columns else columns - 1
    for char in text:
        width = char_width(char)
        marks = 0 if width else marks + 1
        if used + width > room:
            break
        if marks <= MARKS_SHOWN:
            kept.append(char)
        used += width
    return "".join(kept) + ("" if room == columns else "…" * min(columns, 1))


def pad(text: str, columns: int) -> str:
    """The text in exactly so many columns."""
    text = fit(text, columns)
    return text + " " * (columns - width_of(text))


def count(number: int, noun: str, plural: str = "") -> str:
    return f"{number:,} {noun if number == 1 else plural or noun + 's'}"


Number = Union[int, Fraction]  # whole ones are int, which is faster by far


def number(value: Number) -> str:
    """A number that isn't negative, in few digits: below 1,000 a fraction has four, and from 10^12 on each number."""
    if value >= 10**12:
        return f"{float(value):.4g}"
    if value.denominator == 1 or value >= 1000:
        return f"{round(value):,}"
    return f"{float(value):,.4g}"


def duration(nanos: int) -> str:
    """A length of time in a readable unit, with four digits at most below a minute."""
    if nanos < 0:
        return "-" + duration(-nanos)
    if nanos < 1000:
        return f"{nanos} ns"
    for unit, size in (("µs", 10**3), ("ms", 10**6)):
        if nanos * 100 < 99_995 * size:
            return f"{nanos / size:.4g} {unit}"
    if nanos < 59_995 * 10**6:
        return f"{nanos / 10**9:.4g} s"
    seconds = (nanos + 5 * 10**8) // 10**9
    if seconds < 3600:
        return f"{seconds // 60}m {seconds % 60:02}s"
    if seconds < 86_400:
        return f"{seconds // 3600}h {seconds % 3600 // 60:02}m"
    return f"{seconds // 86_400:,}d {seconds % 86_400 // 3600:02}h"


def moment(nanos: int) -> str:
    """A moment as its date and time in UTC."""
    try:
        day = datetime(1970, 1, 1, tzinfo=timezone.utc) + timedelta(seconds=nanos // 10**9)
    except OverflowError:
        return f"{nanos} ns"
    fraction = f".{nanos % 10**9:09}"
    while fraction.endswith("000"):
        fraction = fraction[:-3]
    return f"{day:%Y-%m-%d %H:%M:%S}{fraction.rstrip('.')} UTC"


def offset(at: int, start: int) -> str:
    """When something was, counted from the start of the trace. An event's time may be absent, which is 0."""
    if at == start:
        return "at the start"
    return f"at {duration(at - start)}" if at else "at no time"


# What replies say.


@dataclass(frozen=True)
class Value:
    """An attribute, a selected field or a value of `by`, which has no key."""

    key: str
    text: str
    is_text: bool = False

    def quoted(self) -> str:
        return '"' + one_line(self.text).replace('"', '\\"') + '"' if self.is_text else self.text

    def __str__(self) -> str:
        return f"{self.key}={self.quoted()}"


@dataclass(frozen=True)
class Event:
    name: str
    at: int
    attributes: list[Value]

    def told(self) -> str:
        """What a line says of the event: of an exception its type and its message."""
        said = {a.key: a.text for a in self.attributes}
        parts = [said.get("exception.type", ""), said.get("exception.message", "")]
        told = ": ".join(part for part in parts if part) if self.name == "exception" else ""
        return one_line(told or self.name or "event")


@dataclass(frozen=True)
class Link:
    trace_id: str
    span_id: str
    attributes: list[Value]


@dataclass(frozen=True)
class Scope:
    name: str
    version: str
    attributes: list[Value]


@dataclass
class Span:
    name: str
    trace_id: str
    span_id: str
    parent_id: str
    kind: str
    start: int
    end: int
    code: int
    message: str
    attributes: list[Value]
    events: list[Event]
    links: list[Link]
    service: str
    resource: list[Value]
    scope: Scope
    notes: list[str] = field(default_factory=list)  # what is odd about it

    @property
    def failed(self) -> bool:
        return self.code == FAILED


@dataclass
class Row:
    """A span's place in the drawn tree: `guides` lead to it, `below` to what stands under it."""

    span: Span
    depth: int
    guides: str
    below: str


@dataclass
class Trace:
    trace_id: str
    pushes: int  # how many were accepted when it was told
    rows: list[Row]
    start: int
    length: int

    def told(self) -> str:
        """What a line says of the whole trace."""
        spans = [row.span for row in self.rows]
        services = len({span.service for span in spans if span.service})
        failed = sum(span.failed for span in spans)
        parts = [
            count(len(spans), "span"),
            count(services, "service") if services else "",
            duration(self.length),
            f"{failed:,} failed" if failed else "",
        ]
        return ", ".join(part for part in parts if part)

    def no_spans(self) -> str:
        return f"trace: no spans, as of {count(self.pushes, 'push', 'pushes')}"


@dataclass(frozen=True)
class Hit:
    span_id: str
    name: str
    start: int
    length: int
    fields: list[Value]


@dataclass(frozen=True)
class SpanSet:
    by: list[Value]
    matched: int
    hits: list[Hit]

    def told(self) -> str:
        """How many spans it has, and how many of these the search tells."""
        shown = "" if self.matched == len(self.hits) else f", {len(self.hits):,} shown"
        return count(self.matched, "span") + shown


@dataclass(frozen=True)
class Found:
    trace_id: str
    root: str
    start: int
    length: int
    sets: list[SpanSet]


@dataclass(frozen=True)
class Search:
    pushes: int  # how many were accepted when it was answered
    traces: list[Found]

    def told(self) -> str:
        return f"search: {count(len(self.traces), 'trace')}, as of {count(self.pushes, 'push', 'pushes')}"


@dataclass(frozen=True)
class Series:
    """What metrics tell of the spans that have the same values of `by`: a number for each bucket."""

    by: list[Value]
    numbers: list[Number]

    def head(self) -> list[str]:
        """The values of `by` as texts."""
        return [value.quoted() for value in self.by]


@dataclass(frozen=True)
class Metrics:
    pushes: int  # how many were accepted when they were told
    series: list[Series]

    def told(self) -> str:
        """What a line says of all series. Counts aren't told from rates if all are whole."""
        as_of = f"as of {count(self.pushes, 'push', 'pushes')}"
        all_of = f"metrics: {count(len(self.series), 'series', 'series')}"
        if not self.series:
            return f"{all_of}, {as_of}"
        is_rate = any(it.denominator > 1 for series in self.series for it in series.numbers)
        unit = "spans a second" if is_rate else "spans or spans a second"
        return f"{all_of} of {count(len(self.series[0].numbers), 'bucket')}, {as_of}, in {unit}"

    def shown(self) -> list[Series]:
        """The series with the greatest sums, in the reply's order."""
        places = sorted(range(len(self.series)), key=lambda place: -sum(self.series[place].numbers))
        return [self.series[place] for place in sorted(places[:SERIES_SHOWN])]

    def left_out(self) -> str:
        more = len(self.series) - SERIES_SHOWN
        return f"and {more:,} more series, none with a greater sum" if more > 0 else ""


def greatest(series: list[Series]) -> Fraction:
    """The greatest number of the series, to which all are scaled; 1 if there is none above 0."""
    return Fraction(max((value for it in series for value in it.numbers), default=0) or 1)


@dataclass
class Summary:
    """A run of replies to pushes and upkeep, and of the refusals between them."""

    counts: Counter[str] = field(default_factory=Counter)
    refusals: Counter[str] = field(default_factory=Counter)
    seconds: float = 0.0  # that passed as they were read, if they came through a pipe

    def told(self) -> list[str]:
        """The lines of the summary: what was taken, what was kept up, and what was refused."""
        return [*self.taken(), *self.upkeep(), *self.refused()]

    def taken(self) -> Iterator[str]:
        n = self.counts
        if n["push"]:
            accepted = f"{count(n['accepted'], 'span')} accepted, {n['rejected']:,} rejected"
            skipped = f"{count(n['skipped'], 'attribute, event or link', 'attributes, events or links')} skipped"
            took = f"; read in {duration(int(self.seconds * 10**9))}" if self.seconds >= 0.1 else ""
            yield f"{count(n['push'], 'push', 'pushes')}: {accepted}, {skipped}{took}"

    def upkeep(self) -> Iterator[str]:
        n = self.counts
        if n["cut"]:
            yield f"{count(n['cut'], 'cut')} moved {count(n['moved'], 'row')}"
        if n["flush"]:
            blocks, rows = count(n["flush"], "block"), count(n["flushed"], "row")
            yield f"{count(n['flush'], 'flush', 'flushes')} made {blocks} of {rows}"
        if n["compact"]:
            blocks, rows = count(n["joined"], "block"), count(n["compacted"], "row")
            yield f"{count(n['compact'], 'compaction')} joined {blocks} into {n['compact']:,} of {rows}"
        if n["reclaim"]:
            yield f"{count(n['reclaim'], 'reclaim')} emptied {count(n['emptied'], 'loose file')}"
        if n["nothing"] and not n["flush"] and not n["compact"]:
            yield "nothing to flush or to join"

    def refused(self) -> Iterator[str]:
        shown = self.refusals.most_common(REFUSALS)
        for text, times in shown:
            yield f"{text}  ({count(times, 'time')})"
        others = sum(self.refusals.values()) - sum(times for _, times in shown)
        if others:
            yield f"refused in other words  ({count(others, 'time')})"


@dataclass(frozen=True)
class Passed:
    """A reply that passes unchanged, with its line feed."""

    line: bytes


Part = Union[Trace, Search, Metrics, Summary, Passed]

# Reading.

DRAWN = re.compile(rb"ok (trace|search|metrics) as_of=(\d+) (?:spans|traces|series)=\d+ (\{.*)", re.DOTALL)
NUMBER = re.compile("[0-9]{1,39}(/[1-9][0-9]{0,19})?")
COUNTED = (
    ("push", re.compile(r"ok push \d+ accepted=(?P<accepted>\d+) rejected=(?P<rejected>\d+) skipped=(?P<skipped>\d+)")),
    ("cut", re.compile(r"ok cut(?:all)? moved=(?P<moved>\d+)")),
    ("flush", re.compile(r"ok flush rows=(?P<flushed>\d+)")),
    ("compact", re.compile(r"ok compact blocks=(?P<joined>\d+) rows=(?P<compacted>\d+)")),
    ("reclaim", re.compile(r"ok reclaim files=(?P<emptied>\d+)")),
    ("nothing", re.compile(r"ok (?:flush|compact) nothing")),
)
DURATIONS = ("duration", "traceDuration", "span:duration", "trace:duration")


def read_value(key: str, value: dict | None) -> Value:
    if value is None:
        return Value(key, "nil")
    ((kind, what),) = value.items()
    if kind == "boolValue":
        return Value(key, "true" if what else "false")
    return Value(key, clean(str(what)), kind == "stringValue")


def read_attributes(holder: dict) -> list[Value]:
    return [read_value(word(it["key"]), it["value"]) for it in holder.get("attributes", [])]


def read_field(it: dict) -> Value:
    """A selected field of a search; a duration is told as one."""
    value = read_value(word(it["key"]), it["value"])
    is_duration = value.key in DURATIONS and not value.is_text and value.text.isdecimal()
    return Value(value.key, duration(int(value.text))) if is_duration else value


def read_events(span: dict) -> list[Event]:
    return [Event(word(e["name"]), int(e["timeUnixNano"]), read_attributes(e)) for e in span.get("events", [])]


def read_links(span: dict) -> list[Link]:
    return [Link(word(it["traceId"]), word(it["spanId"]), read_attributes(it)) for it in span.get("links", [])]


def read_span(span: dict, resource: list[Value], scope: Scope) -> Span:
    status = span.get("status", {})
    kind = int(span.get("kind", 0))
    service = next((one_line(a.text) for a in resource if a.key == "service.name"), "")
    return Span(
        name=word(span["name"]), trace_id=word(span["traceId"]),
        span_id=word(span["spanId"]), parent_id=word(span.get("parentSpanId", "")),
        kind=KINDS[kind] if 0 <= kind < len(KINDS) else str(kind),
        start=int(span["startTimeUnixNano"]), end=int(span["endTimeUnixNano"]),
        code=int(status.get("code", 0)), message=clean(status.get("message", "")),
        attributes=read_attributes(span), events=read_events(span), links=read_links(span),
        service=service, resource=resource, scope=scope,
    )


def read_spans(trace: dict) -> Iterator[Span]:
    for group in trace["resourceSpans"]:
        resource = read_attributes(group.get("resource", {}))
        for inner in group["scopeSpans"]:
            said = inner.get("scope", {})
            scope = Scope(word(said.get("name", "")), word(said.get("version", "")), read_attributes(said))
            for span in inner["spans"]:
                yield read_span(span, resource, scope)


def read_trace(pushes: int, trace: dict) -> Trace:
    spans = list(read_spans(trace))
    start = min((span.start for span in spans), default=0)
    end = max((max(span.start, span.end) for span in spans), default=0)
    return Trace(spans[0].trace_id if spans else "", pushes, lay_out(spans), start, end - start)


def read_hit(span: dict) -> Hit:
    fields = [read_field(it) for it in span["attributes"]]
    start, length = int(span["startTimeUnixNano"]), int(span["durationNanos"])
    return Hit(word(span["spanId"]), word(span["name"]), start, length, fields)


def read_found(trace: dict) -> Found:
    sets = [SpanSet([read_value("", value) for value in group["by"]], int(group["matched"]),
                    [read_hit(span) for span in group["spans"]]) for group in trace["spanSets"]]
    root = ": ".join(word(text) for text in (trace["rootService"], trace["rootName"]) if text is not None)
    start, length = int(trace["startTimeUnixNano"]), int(trace["durationNanos"])
    return Found(word(trace["traceId"]), root or "no root", start, length, sets)


@lru_cache(maxsize=4096)
def number_of(text: str) -> Number:
    if not NUMBER.fullmatch(text):
        raise ValueError(f"{text} is no number of a bucket")
    return int(text) if "/" not in text else Fraction(text)


def read_number(value: dict) -> Number:
    ((kind, text),) = value.items()
    if kind not in ("intValue", "ratioValue"):
        raise ValueError(f"{kind} is no number of a bucket")
    return number_of(text)


def read_series(series: dict) -> Series:
    return Series([read_value("", value) for value in series["by"]], [read_number(it) for it in series["values"]])


def read_metrics(pushes: int, said: dict) -> Metrics:
    series = [read_series(it) for it in said["series"]]
    lengths = {len(it.numbers) for it in series}
    if len(lengths) > 1 or 0 in lengths:
        raise ValueError("series have the same buckets, and at least one")
    return Metrics(pushes, series)


def read_drawn(line: bytes) -> Trace | Search | Metrics | None:
    """The trace, search or metrics that a reply tells; None if it is another reply. A broken one raises some error."""
    match = DRAWN.fullmatch(line.rstrip(b"\r\n"))
    if not match:
        return None
    pushes, said = int(match[2]), json.loads(match[3])
    if match[1] == b"trace":
        return read_trace(pushes, said)
    if match[1] == b"metrics":
        return read_metrics(pushes, said)
    return Search(pushes, [read_found(trace) for trace in said["traces"]])


# What reading a broken reply may raise.
BROKEN = (KeyError, TypeError, ValueError, AttributeError, OverflowError, RecursionError)


class Run:
    """The replies of a summary while they come. Until two are counted they are kept, to pass unchanged."""

    def __init__(self) -> None:
        self.summary, self.lines, self.counted, self.began = Summary(), [], 0, time.monotonic()

    def takes(self, line: bytes) -> bool:
        """Counts a reply, if it is one that a summary counts."""
        text = line.rstrip(b"\r\n").decode(errors="replace")
        if text.startswith("refused "):
            self.summary.refusals[clean(text)] += 1
        elif not self.takes_answer(text):
            return False
        if self.counted < 2:
            self.lines.append(line)
        return True

    def takes_answer(self, text: str) -> bool:
        for what, pattern in COUNTED:
            if match := pattern.fullmatch(text):
                self.summary.counts[what] += 1
                self.summary.counts.update({name: int(number) for name, number in match.groupdict().items()})
                self.counted += 1
                return True
        return False

    def ends(self, is_live: bool) -> Iterator[Part]:
        """The parts that stand for the run."""
        if self.counted < 2:
            yield from map(Passed, self.lines)
        else:
            self.summary.seconds = time.monotonic() - self.began if is_live else 0.0
            yield self.summary


class Reader:
    """Turns lines of replies into parts, and remembers whether one was broken."""

    def __init__(self) -> None:
        self.broken = False

    def parts(self, lines: Iterable[bytes], is_live: bool = False) -> Iterator[Part]:
        run = Run()
        for line in lines:
            if not run.takes(line):
                yield from run.ends(is_live)
                yield self.part(line)
                run = Run()
        yield from run.ends(is_live)

    def part(self, line: bytes) -> Part:
        try:
            return read_drawn(line) or Passed(line)
        except BROKEN as error:
            self.broken = True
            print(f"show: a reply can't be read and passes unchanged: {clean(str(error))[:200]}", file=sys.stderr)
            return Passed(line)


# The tree of a trace.


def ring_top(place: int, parents: list[int | None]) -> int:
    """The first span by place of the ring of parents that one of its spans lies on."""
    top, here = place, parents[place]
    while here != place:
        top, here = min(top, here), parents[here]
    return top


def cut_rings(parents: list[int | None]) -> list[int]:
    """Takes the parent of one span of each ring, so that a forest is left, and tells these spans."""
    tops, reached = [], [-1] * len(parents)
    for first in range(len(parents)):
        here: int | None = first
        while here is not None and reached[here] < 0:
            reached[here] = first
            here = parents[here]
        if here is not None and reached[here] == first:
            top = ring_top(here, parents)
            parents[top] = None
            tops.append(top)
    return tops


def note_what_is_odd(spans: list[Span], parents: list[int | None], tops: list[int]) -> None:
    for place in tops:
        spans[place].notes.append("its parents lead back to it")
    ring = set(tops)
    for place, span in enumerate(spans):
        if parents[place] is None and span.parent_id and place not in ring:
            span.notes.append(f"its parent {span.parent_id} isn't here")
        if span.end < span.start:
            span.notes.append(f"it ends {duration(span.start - span.end)} before it starts")


def lay_out(spans: list[Span]) -> list[Row]:
    """The spans as rows, each parent before its children and these in the order of the reply."""
    places: dict[str, int] = {}
    for place, span in enumerate(spans):
        places.setdefault(span.span_id, place)
    parents = [places.get(span.parent_id) if span.parent_id else None for span in spans]
    note_what_is_odd(spans, parents, cut_rings(parents))
    children: list[list[int]] = [[] for _ in spans]
    roots = [place for place, parent in enumerate(parents) if parent is None]
    for place, parent in enumerate(parents):
        if parent is not None:
            children[parent].append(place)
    rows, todo = [], [(place, 0, "", False) for place in reversed(roots)]
    while todo:
        place, depth, before, is_last = todo.pop()
        guides = before + ("└ " if is_last else "├ ") if depth else ""
        inner = (before + ("  " if is_last else "│ "))[-GUIDES:] if depth else ""
        below = children[place]
        rows.append(Row(spans[place], depth, guides, inner + ("│ " if below else "  ")))
        todo += [(child, depth + 1, inner, child == below[-1]) for child in reversed(below)]
    return rows
