"""Reads the bytes of a trace store's list and log by docs/LIST-FORMAT.md and docs/LOG-FORMAT.md.

Nothing here is proved, and nothing here is the program's code: it is a second reading of the same pages. Bytes that
aren't as they have to be raise `Malformed` with the first such offset of the file. No count that a file holds takes
memory for what isn't there: items are read one after another, and each has a byte at least.
"""
from __future__ import annotations

from dataclasses import dataclass, field
from typing import Callable, List, NoReturn, Optional, Set, Tuple

MOST_SPANS = 16_384
MOST_PUSHES = 4_294_967_295
MOST_ROWS = 1_048_576
MOST_LEVEL = 63
SHORTEST_LIST = 30
OPEN = 1

# An attribute is its key, the byte that says which kind its value has, and the value; so True and 1 stay apart.
Attribute = Tuple[str, int, object]
Attributes = Tuple[Attribute, ...]
Scope = Tuple[str, str, Attributes]
TEXT, WHOLE, TRUTH = 0, 1, 2


class Malformed(Exception):
    """Bytes that aren't as they have to be: the first such offset of the file, and what was expected there."""

    def __init__(self, at: int, expected: str):
        super().__init__(f"malformed at {at}: expected {expected}")
        self.at = at
        self.expected = expected


def shown(text: str, most: int = 60) -> str:
    """A text that is safe on a terminal: in quotes, with escapes for all but printable ASCII, and shortened."""
    return ascii(text if len(text) <= most else text[:most] + "...")


class Cursor:
    """Reads fields one after another, up to `stop`, the end of the part that they stand in.

    `within` says that the file has all bytes of the part. Then a field that would pass the part's end is malformed at
    its first byte; else bytes are missing, which is told at the end.
    """

    def __init__(self, data: bytes, at: int = 0, stop: Optional[int] = None, within: bool = False):
        self.data = data
        self.at = at
        self.stop = len(data) if stop is None else stop
        self.within = within

    def passed(self, start: int, what: str) -> NoReturn:
        if self.within:
            raise Malformed(start, f"{what} that ends within its part, by {self.stop}")
        raise Malformed(self.stop, f"more bytes: {what}")

    def raw(self, count: int, what: str) -> bytes:
        end = self.at + count
        if end > self.stop:
            self.passed(self.at, what)
        found = self.data[self.at : end]
        self.at = end
        return found

    def byte(self, what: str) -> int:
        return self.raw(1, what)[0]

    def fixed32(self, what: str) -> int:
        return int.from_bytes(self.raw(4, what), "little")

    def fixed64(self, what: str) -> int:
        return int.from_bytes(self.raw(8, what), "little")

    def var(self, what: str) -> int:
        start = at = self.at
        value = 0
        for group in range(10):
            if at >= self.stop:
                self.passed(start, what)
            byte = self.data[at]
            at += 1
            if (byte == 0 and group > 0) or (byte > 1 and group == 9):
                raise Malformed(start, f"{what} in its shortest form, below 2^64")
            value |= (byte & 127) << (7 * group)
            if byte < 128:
                break
        self.at = at
        return value

    def zigzag(self, what: str) -> int:
        number = self.var(what)
        return number // 2 if number % 2 == 0 else -(number // 2) - 1

    def text(self, what: str) -> str:
        start = self.at
        length = self.var(f"{what}'s length")
        if self.at + length > self.stop:
            self.passed(start, f"{what}, a text of {length} bytes")
        found = self.raw(length, what)
        try:
            return found.decode("utf-8")
        except UnicodeDecodeError:
            raise Malformed(start, f"{what} in UTF-8") from None

    def id(self, count: int, what: str) -> bytes:
        start = self.at
        found = self.raw(count, f"{what} of {count} bytes")
        if not any(found):
            raise Malformed(start, f"{what} that isn't all zeros")
        return found

    def choice(self, most: int, what: str) -> int:
        start = self.at
        found = self.byte(what)
        if found > most:
            raise Malformed(start, f"{what} from 0 to {most}, not {found}")
        return found


# ---- spans


@dataclass
class Span:
    """A span with its resource and its scope, as a log or a block has it."""

    trace: bytes
    id: bytes
    parent: Optional[bytes]
    name: str
    kind: int
    start: int
    end: int
    status: int
    message: str
    attrs: Attributes
    resource: Attributes
    scope: Scope
    events: Tuple[Tuple[int, str, Attributes], ...] = ()
    links: Tuple[Tuple[bytes, bytes, Attributes], ...] = ()


@dataclass
class Row:
    """A span, and where it came in."""

    push: int
    position: int
    span: Span


KeepRow = Callable[[Row], None]


class SpanParts:
    """Reads the parts of spans that log and blocks have alike. How a text stands there the two say themselves."""

    def __init__(self, cursor: Cursor):
        self.cursor = cursor

    def text(self, what: str) -> str:
        return self.cursor.text(what)

    def value(self) -> Tuple[int, object]:
        kind = self.cursor.choice(TRUTH, "kind of a value")
        if kind == TEXT:
            return kind, self.text("value")
        if kind == WHOLE:
            return kind, self.cursor.zigzag("value")
        return kind, self.cursor.choice(1, "truth") == 1

    def attributes(self) -> Attributes:
        count = self.cursor.var("count of attributes")
        found: List[Attribute] = []
        keys: Set[str] = set()
        while len(found) < count:
            start = self.cursor.at
            key = self.text("key")
            if key in keys:
                raise Malformed(start, f"a key that isn't in the list yet, not {shown(key)}")
            keys.add(key)
            found.append((key, *self.value()))
        return tuple(found)

    def scope(self) -> Scope:
        return self.text("scope's name"), self.text("scope's version"), self.attributes()

    def parent(self) -> Optional[bytes]:
        return self.cursor.id(8, "parent") if self.cursor.choice(1, "whether there is a parent") else None

    def events(self) -> Tuple[Tuple[int, str, Attributes], ...]:
        count = self.cursor.var("count of events")
        found: List[Tuple[int, str, Attributes]] = []
        while len(found) < count:
            found.append((self.cursor.fixed64("event's time"), self.text("event's name"), self.attributes()))
        return tuple(found)

    def links(self) -> Tuple[Tuple[bytes, bytes, Attributes], ...]:
        count = self.cursor.var("count of links")
        found: List[Tuple[bytes, bytes, Attributes]] = []
        while len(found) < count:
            trace, span = self.cursor.id(16, "link's trace id"), self.cursor.id(8, "link's span id")
            found.append((trace, span, self.attributes()))
        return tuple(found)


# ---- the list


@dataclass
class SegmentRef:
    file: int
    first: int


@dataclass
class BlockRef:
    file: int
    level: int
    rows: int


@dataclass
class StoreList:
    """A list of a store, as one slot holds it."""

    generation: int
    next_file: int
    floor: int
    segments: List[SegmentRef] = field(default_factory=list)
    blocks: List[BlockRef] = field(default_factory=list)
    loose: List[int] = field(default_factory=list)
    length: int = 0

    def named(self) -> Set[int]:
        return {it.file for it in self.segments} | {it.file for it in self.blocks} | set(self.loose)


def is_vacant(data: bytes) -> bool:
    """Whether a slot with these bytes holds no list."""
    return len(data) < SHORTEST_LIST or data[0] != OPEN


def successor(generation: int) -> int:
    return (generation + 1) % 256


class ListReader:
    """Reads an open slot, field by field in the order of the bytes."""

    def __init__(self, slot: int, data: bytes, other: Optional[int]):
        self.slot = slot
        self.other = other
        self.cursor = Cursor(data, at=1)
        self.files: Set[int] = set()

    def tag(self) -> None:
        if self.cursor.raw(4, "tag") != b"TSL1":
            raise Malformed(1, "the tag TSL1")

    def generation(self) -> int:
        found = self.cursor.byte("generation")
        if found % 2 != self.slot:
            raise Malformed(5, f"a generation of slot {self.slot}, whose parity is its number, not {found}")
        if self.other is not None and found != successor(self.other) and self.other != successor(found):
            raise Malformed(5, f"a generation next to slot 0's {self.other}, not {found}")
        return found

    def file(self, next_file: int) -> int:
        start = self.cursor.at
        found = self.cursor.fixed32("file")
        if not 2 <= found < next_file or found in self.files:
            raise Malformed(start, f"a file from 2 on, below the next file {next_file} and named once, not {found}")
        self.files.add(found)
        return found

    def segment(self, body: StoreList, is_last: bool) -> SegmentRef:
        file = self.file(body.next_file)
        start = self.cursor.at
        first = self.cursor.fixed64("segment's first number")
        if first > MOST_PUSHES:
            raise Malformed(start, f"a first number of {MOST_PUSHES} at most, not {first}")
        if body.segments and first < body.segments[-1].first:
            raise Malformed(start, f"a first number not below the {body.segments[-1].first} before it, not {first}")
        if not body.segments and first > body.floor:
            raise Malformed(start, f"a first number of at most the floor {body.floor}, not {first}")
        if is_last and first < body.floor:
            raise Malformed(start, f"a last segment that begins at the floor {body.floor} or later, not {first}")
        return SegmentRef(file, first)

    def block(self, next_file: int) -> BlockRef:
        file = self.file(next_file)
        start = self.cursor.at
        level = self.cursor.byte("block's level")
        if level > MOST_LEVEL:
            raise Malformed(start, f"a level of {MOST_LEVEL} at most, not {level}")
        start = self.cursor.at
        rows = self.cursor.fixed32("block's rows")
        if not 1 <= rows <= MOST_ROWS:
            raise Malformed(start, f"1 to {MOST_ROWS} rows, not {rows}")
        return BlockRef(file, level, rows)

    def read(self) -> StoreList:
        self.tag()
        body = StoreList(self.generation(), self.cursor.fixed32("next file"), self.cursor.fixed64("floor"))
        start = self.cursor.at
        segments = self.cursor.fixed32("number of segments")
        if segments == 0:
            raise Malformed(start, "a number of segments that isn't 0")
        blocks = self.cursor.fixed32("number of blocks")
        loose = self.cursor.fixed32("number of loose files")
        for number in range(segments):
            body.segments.append(self.segment(body, number + 1 == segments))
        for _ in range(blocks):
            body.blocks.append(self.block(body.next_file))
        for _ in range(loose):
            body.loose.append(self.file(body.next_file))
        body.length = self.cursor.at
        return body


def read_slot(slot: int, data: bytes, other: Optional[int] = None) -> Optional[StoreList]:
    """The list in the bytes of a slot, or None where it is vacant. `other` is the generation of slot 0, for slot 1."""
    return None if is_vacant(data) else ListReader(slot, data, other).read()


def newer(first: Optional[StoreList], second: Optional[StoreList]) -> Optional[int]:
    """The slot whose list counts, of what slot 0 and slot 1 hold; None where both are vacant."""
    if first is None or second is None:
        return 0 if first else 1 if second else None
    return 1 if second.generation == successor(first.generation) else 0


# ---- the log


@dataclass
class SegmentFacts:
    """What was read of a segment: it grows as it is read, so that it says how far that came."""

    first: int
    records: int = 0
    spans: int = 0
    gate: Optional[int] = None


class RecordReader(SpanParts):
    """Reads the body of one record."""

    def __init__(self, cursor: Cursor, number: int, keep: Optional[KeepRow]):
        super().__init__(cursor)
        self.number = number
        self.keep = keep
        self.start = cursor.at
        self.spans = 0
        self.extended = False
        self.rich = False

    def read(self) -> None:
        first = self.cursor.fixed64("number and form")
        if self.number >= MOST_PUSHES or first not in (self.number, self.number + 2**56):
            raise Malformed(self.start, f"the number {self.number} with form 0 or 1, not {first:#018x}")
        self.extended = first != self.number
        before: Optional[Attributes] = None
        for _ in range(self.cursor.var("count of resource runs")):
            before = self.resource_run(before)
        if self.extended and not self.rich:
            raise Malformed(self.start, "form 0, since no span has an event or a link")

    def resource_run(self, before: Optional[Attributes]) -> Attributes:
        start = self.cursor.at
        resource = self.attributes()
        if resource == before:
            raise Malformed(start, "another resource than that of the run before")
        start = self.cursor.at
        count = self.cursor.var("count of scope runs")
        if count == 0:
            raise Malformed(start, "a count of scope runs that isn't 0")
        scope: Optional[Scope] = None
        for _ in range(count):
            scope = self.scope_run(resource, scope)
        return resource

    def scope_run(self, resource: Attributes, before: Optional[Scope]) -> Scope:
        start = self.cursor.at
        scope = self.scope()
        if scope == before:
            raise Malformed(start, "another scope than that of the run before")
        start = self.cursor.at
        count = self.cursor.var("count of spans")
        most = MOST_SPANS - self.spans
        if not 0 < count <= most:
            raise Malformed(start, f"1 to {most} spans, since a record has {MOST_SPANS} at most, not {count}")
        for _ in range(count):
            self.span(resource, scope)
        return scope

    def span(self, resource: Attributes, scope: Scope) -> None:
        read = self.cursor
        span = Span(
            trace=read.id(16, "trace id"),
            id=read.id(8, "span id"),
            parent=self.parent(),
            name=self.text("name"),
            kind=read.choice(5, "kind"),
            start=read.fixed64("start"),
            end=read.fixed64("end"),
            status=read.choice(2, "status"),
            message=self.text("message"),
            attrs=self.attributes(),
            resource=resource,
            scope=scope,
            events=self.events() if self.extended else (),
            links=self.links() if self.extended else (),
        )
        self.rich = self.rich or bool(span.events) or bool(span.links)
        if self.keep:
            self.keep(Row(self.number, self.spans, span))
        self.spans += 1


def read_record(data: bytes, at: int, number: int, keep: Optional[KeepRow] = None) -> Tuple[int, int]:
    """Reads the record whose length stands at the offset. Gives the offset after it and how many spans it has."""
    length = Cursor(data, at).fixed64("length of a record")
    start = at + 8
    within = start + length <= len(data)
    cursor = Cursor(data, start, start + length if within else len(data), within)
    reader = RecordReader(cursor, number, keep)
    reader.read()
    if not within or cursor.at != cursor.stop:
        raise Malformed(cursor.at, f"the end of a body of {length} bytes")
    return cursor.at, reader.spans


def read_segment(data: bytes, facts: SegmentFacts, keep: Optional[KeepRow] = None) -> None:
    """Reads a segment whose first record has the number that the facts say, and notes in them what was read."""
    if Cursor(data).byte("version") != 1:
        raise Malformed(0, "the version 1")
    at = 1
    while Cursor(data, at).byte("commit byte") == OPEN:
        at, spans = read_record(data, at + 1, facts.first + facts.records, keep)
        facts.records += 1
        facts.spans += spans
    facts.gate = at


def unopened_record(data: bytes, facts: SegmentFacts) -> Optional[int]:
    """How many spans the record has that stands whole after the closed commit byte; None where none stands there."""
    if facts.gate is None or facts.gate + 1 >= len(data):
        return None
    try:
        end, spans = read_record(data, facts.gate + 1, facts.first + facts.records)
    except Malformed:
        return None
    return spans if end < len(data) else None
