"""Reads the bytes of a trace store's block by docs/BLOCK-FORMAT.md.

Nothing here is proved, and nothing here is the program's code. `read_header` and `count_traces` read a header and an
index alone; `check_block` reads all and raises `Malformed` at the first offset of the file that isn't as it has to be.
"""
from __future__ import annotations

from dataclasses import dataclass, field
from typing import Callable, List, Optional, Sequence, Tuple, TypeVar

from store_format import Cursor, KeepRow, Malformed, Row, Span, SpanParts, shown

PAGE = 4096
MOST_HEADER_PAGES = 33
MOST_STRIPES = 4096
STRIPE_ROWS = 256
LAST_PAGE = 2**51
INDEX_ENTRIES = 170
FILTER_TRACES = 2048
FILTER_BITS = 32_768
FORMS = {b"TSB1": 1, b"TSB2": 2}

T = TypeVar("T")


def pages_for(count: int, each: int = PAGE) -> int:
    return -(-count // each)


def fill_after(end: int) -> int:
    """How many zeros follow what ends there, up to a whole page."""
    return -end % PAGE


def check_fill(data: bytes, end: int) -> None:
    """After that offset come zeros up to a whole page, and nothing else."""
    rest = data[end:]
    zeros = len(rest) - len(rest.lstrip(b"\0"))
    fill = fill_after(end)
    if zeros != fill or len(rest) != fill:
        raise Malformed(end + min(zeros, fill), f"{fill} zeros from {end} on, and then the part's end")


# ---- the header


@dataclass
class StripeEntry:
    page: int
    pages: int
    rows: int
    earliest: int
    latest: int


@dataclass
class Header:
    form: int
    pages: int
    index_pages: int
    bloom_pages: int
    stripes: List[StripeEntry] = field(default_factory=list)

    def index_page(self) -> int:
        return self.pages + sum(it.pages for it in self.stripes)

    def all_pages(self) -> int:
        return self.index_page() + self.index_pages + self.bloom_pages

    def rows(self) -> int:
        return sum(it.rows for it in self.stripes)


def header_part(data: bytes) -> bytes:
    """The header's pages: as many as its own field says where a header can have so many, and else one."""
    pages = int.from_bytes(data[4:8], "little") if len(data) >= 8 else 1
    return data[: PAGE * pages] if 1 <= pages <= MOST_HEADER_PAGES else data[:PAGE]


def read_entry(read: Cursor, page: int, is_last: bool) -> StripeEntry:
    start = read.at
    pages = read.fixed64("stripe's pages")
    if page + pages > LAST_PAGE:
        raise Malformed(start, f"a stripe that ends at page 2^51 at most, not one of {pages} pages")
    start = read.at
    rows = read.fixed64("stripe's rows")
    if not 1 <= rows <= STRIPE_ROWS or (rows < STRIPE_ROWS and not is_last):
        raise Malformed(start, f"{'1 to ' if is_last else ''}256 rows in a stripe, not {rows}")
    return StripeEntry(page, pages, rows, read.fixed64("earliest start"), read.fixed64("latest start"))


def read_header(data: bytes) -> Header:
    """The header of a block's file, of which the first 33 pages are enough."""
    part = header_part(data)
    read = Cursor(part)
    form = FORMS.get(read.raw(4, "form"))
    if form is None:
        raise Malformed(0, "the form TSB1 or TSB2")
    pages = read.fixed32("header pages")
    stripes = read.fixed32("number of stripes")
    wanted = pages_for(20 + 32 * stripes)
    if pages != wanted:
        raise Malformed(4, f"{wanted} header pages for {stripes} stripes, not {pages}")
    if not 1 <= stripes <= MOST_STRIPES:
        raise Malformed(8, f"1 to {MOST_STRIPES} stripes, not {stripes}")
    header = Header(form, pages, read.fixed32("index pages"), read.fixed32("Bloom pages"))
    page = pages
    for number in range(stripes):
        entry = read_entry(read, page, number + 1 == stripes)
        header.stripes.append(entry)
        page += entry.pages
    check_fill(part, read.at)
    return header


# ---- stripes


class Table:
    """Values of a stripe with the offsets where they stand, and how many were referred to."""

    def __init__(self, what: str):
        self.what = what
        self.values: list = []
        self.offsets: List[int] = []
        self.used = 0

    def refer(self, read: Cursor, what: str):
        start = read.at
        number = read.var(what)
        if number > self.used or number >= len(self.values):
            most = min(self.used, len(self.values) - 1)
            raise Malformed(start, f"{what}, a {self.what} from 0 to {most} or none, not {number}")
        self.used = max(self.used, number + 1)
        return self.values[number]

    def unused(self) -> Optional[Malformed]:
        if self.used == len(self.values):
            return None
        return Malformed(self.offsets[self.used], f"a {self.what} that something refers to")


class StripeReader(SpanParts):
    """Reads a stripe by itself; texts are numbers of its table. Offsets count from the stripe's first byte."""

    def __init__(self, part: bytes, extended: bool):
        self.part = part
        self.size = Cursor(part).fixed64("length of a stripe")
        self.end = 8 + self.size
        within = self.end <= len(part)
        super().__init__(Cursor(part, 8, self.end if within else len(part), within))
        self.extended = extended
        self.texts = Table("text")
        self.resources = Table("resource")
        self.scopes = Table("scope")
        self.count: Optional[int] = None
        self.starts: Optional[List[int]] = None
        self.unreferred: Optional[Malformed] = None

    def text(self, what: str) -> str:
        return self.texts.refer(self.cursor, what)

    def fill_table(self, table: Table, read_one: Callable[[], object]) -> None:
        count = self.cursor.var(f"count of {table.what}s")
        seen = set()
        while len(table.values) < count:
            start = self.cursor.at
            value = read_one()
            if value in seen:
                told = f", not {shown(value)}" if isinstance(value, str) else ""
                raise Malformed(start, f"a {table.what} that isn't in its table yet{told}")
            seen.add(value)
            table.values.append(value)
            table.offsets.append(start)

    def column(self, read_one: Callable[[], T]) -> List[T]:
        return [read_one() for _ in range(self.count or 0)]

    def row_count(self) -> None:
        found = self.cursor.var("number of rows")
        if not 1 <= found <= STRIPE_ROWS:
            raise Malformed(0, f"a stripe of 1 to {STRIPE_ROWS} rows, not {found}")
        self.count = found

    def position(self) -> int:
        start = self.cursor.at
        found = self.cursor.var("position")
        if found >= 2**32:
            raise Malformed(start, f"a position below 2^32, not {found}")
        return found

    def owners(self, table: Table) -> list:
        found = self.column(lambda: table.refer(self.cursor, table.what))
        # The next fields are read on, since a text that nothing refers to stands before this one and is told instead.
        self.unreferred = self.unreferred or table.unused()
        return found

    def cells(self) -> List[list]:
        """All columns, in the order of the file."""
        read, column = self.cursor, self.column
        found: List[list] = [
            column(lambda: read.id(16, "trace id")),
            column(lambda: read.id(8, "span id")),
            column(self.parent),
            column(lambda: read.var("push")),
            column(self.position),
            column(lambda: self.text("name")),
            column(lambda: read.choice(5, "kind")),
        ]
        self.starts = column(lambda: read.fixed64("start"))
        found.append(self.starts)
        found.append(column(lambda: read.fixed64("end")))
        found.append(column(lambda: read.choice(2, "status")))
        found.append(column(lambda: self.text("message")))
        found.append(self.owners(self.resources))
        found.append(self.owners(self.scopes))
        found.append(column(self.attributes))
        found.append(column(self.events if self.extended else tuple))
        found.append(column(self.links if self.extended else tuple))
        return found

    def tables_and_cells(self) -> List[list]:
        self.fill_table(self.resources, self.attributes)
        self.fill_table(self.scopes, self.scope)
        self.row_count()
        return self.cells()

    def content(self) -> List[Row]:
        self.fill_table(self.texts, lambda: self.cursor.text("text"))
        try:
            cells = self.tables_and_cells()
        except Malformed as fault:
            raise self.unreferred or fault from None
        fault = self.texts.unused() or self.unreferred
        if fault:
            raise fault
        if not self.cursor.within or self.cursor.at != self.cursor.stop:
            raise Malformed(self.cursor.at, f"the end of the stripe's content of {self.size} bytes")
        return [row_of(it) for it in zip(*cells)]

    def read(self) -> List[Row]:
        rows = self.content()
        check_fill(self.part, self.end)
        for before, after in zip(rows, rows[1:]):
            if order_of(before) >= order_of(after):
                raise Malformed(0, "rows that ascend by trace, start and span id")
        return rows

    def disagrees(self, entry: StripeEntry) -> bool:
        """Whether so much as was read tells that the stripe isn't as its entry says."""
        other_count = self.count is not None and self.count != entry.rows
        return other_count or (self.starts is not None and not agrees(entry, self.starts))


def row_of(cells: Sequence) -> Row:
    trace, id_, parent, push, position, name, kind, start, end, status, message, *others = cells
    resource, scope, attrs, events, links = others
    span = Span(trace, id_, parent, name, kind, start, end, status, message, attrs, resource, scope, events, links)
    return Row(push, position, span)


def order_of(row: Row) -> Tuple[bytes, int, bytes]:
    return row.span.trace, row.span.start, row.span.id


def agrees(entry: StripeEntry, starts: List[int]) -> bool:
    """Whether rows that start so are as their stripe's entry says."""
    return (len(starts), min(starts), max(starts)) == (entry.rows, entry.earliest, entry.latest)


def read_agreeing(reader: StripeReader, entry: StripeEntry) -> List[Row]:
    """The rows of a stripe that are as its entry says. If they aren't, that is told before what comes later."""
    told = f"a stripe of {entry.rows} rows that start from {entry.earliest} to {entry.latest}, as its entry says"
    try:
        rows = reader.read()
    except Malformed:
        if reader.disagrees(entry):
            raise Malformed(0, told) from None
        raise
    if reader.disagrees(entry):
        raise Malformed(0, told)
    return rows


def read_stripe(part: bytes, extended: bool, entry: StripeEntry, last: Optional[Row]) -> List[Row]:
    """The rows of a stripe, by its entry and after the last row of the stripe before. Offsets count from its start."""
    if entry.earliest > entry.latest or (entry.rows == 1 and entry.earliest != entry.latest):
        told = f"{entry.rows} rows from {entry.earliest} to {entry.latest}"
        raise Malformed(0, f"a stripe whose entry can be right, not {told}")
    reader = StripeReader(part, extended)
    if pages_for(reader.end) != entry.pages:
        raise Malformed(0, f"a length of {entry.pages} pages, as the stripe's entry says, not {reader.size} bytes")
    rows = read_agreeing(reader, entry)
    if last and order_of(last) >= order_of(rows[0]):
        raise Malformed(0, "a first row that follows the last one of the stripe before")
    return rows


# ---- index and Bloom filters


@dataclass
class IndexEntry:
    trace: bytes
    first_row: int
    rows: int

    def encoded(self) -> bytes:
        return self.trace + self.first_row.to_bytes(4, "little") + self.rows.to_bytes(4, "little")


def count_traces(index: bytes) -> int:
    """How many entries the pages of an index have, each page up to the first id of zeros alone."""
    count = 0
    for page in range(0, len(index), PAGE):
        for at in range(page, min(page + 24 * INDEX_ENTRIES, len(index) - 23), 24):
            if not any(index[at : at + 16]):
                break
            count += 1
    return count


def index_of(entries: Sequence[IndexEntry]) -> bytes:
    made = bytearray()
    for at in range(0, len(entries), INDEX_ENTRIES):
        for entry in entries[at : at + INDEX_ENTRIES]:
            made += entry.encoded()
        made += bytes(fill_after(len(made)))
    return bytes(made)


def hash_of(data: bytes, start: int = 14695981039346656037) -> int:
    """FNV-1a of 64 bits."""
    value = start
    for byte in data:
        value = (value ^ byte) * 1099511628211 % 2**64
    return value


def filters_of(entries: Sequence[IndexEntry]) -> bytes:
    pages = pages_for(len(entries), FILTER_TRACES)
    made = bytearray(PAGE * pages)
    for entry in entries:
        place = hash_of(entry.trace)
        bits = hash_of(b"\1", place)
        base = place % pages * PAGE
        for shift in (0, 16, 32, 48):
            bit = (bits >> shift) % FILTER_BITS
            made[base + bit // 8] |= 1 << bit % 8
    return bytes(made)


def first_difference(wanted: bytes, found: bytes) -> Optional[int]:
    """The first place at which bytes aren't the wanted ones: one that differs, or where either ends."""
    if wanted == found:
        return None
    common = min(len(wanted), len(found))
    for at in range(0, common, PAGE):
        if wanted[at : at + PAGE] != found[at : at + PAGE]:
            differing = (it for it in range(at, min(at + PAGE, common)) if wanted[it] != found[it])
            return next(differing, common)
    return common


def check_tail(data: bytes, header: Header, entries: Sequence[IndexEntry]) -> None:
    """The index and the Bloom filters are those of these traces, and the file ends with them."""
    index_pages, bloom_pages = pages_for(len(entries), INDEX_ENTRIES), pages_for(len(entries), FILTER_TRACES)
    if header.index_pages != index_pages:
        raise Malformed(12, f"{index_pages} index pages for {len(entries)} traces, not {header.index_pages}")
    if header.bloom_pages != bloom_pages:
        raise Malformed(16, f"{bloom_pages} Bloom pages for {len(entries)} traces, not {header.bloom_pages}")
    base = PAGE * header.index_page()
    wanted = index_of(entries) + filters_of(entries)
    at = first_difference(wanted, data[base:])
    if at is None:
        return
    part = "the index" if at < PAGE * index_pages else "the Bloom filters"
    if at == len(wanted):
        raise Malformed(base + at, "the end of the file")
    if base + at >= len(data):
        raise Malformed(base + at, f"more bytes: {part}")
    raise Malformed(base + at, f"the byte {wanted[at]:02x} of {part}, not {data[base + at]:02x}")


# ---- the whole


class Outline:
    """What the end of a block is checked by: its traces, whether a row has an event or a link, and its last row."""

    def __init__(self) -> None:
        self.entries: List[IndexEntry] = []
        self.rows = 0
        self.rich = False
        self.last: Optional[Row] = None

    def add(self, row: Row) -> None:
        if self.last and self.last.span.trace == row.span.trace:
            self.entries[-1].rows += 1
        else:
            self.entries.append(IndexEntry(row.span.trace, self.rows, 1))
        self.rows += 1
        self.rich = self.rich or bool(row.span.events) or bool(row.span.links)
        self.last = row


def check_block(data: bytes, listed_rows: Optional[int] = None, keep: Optional[KeepRow] = None) -> Outline:
    """Checks all bytes of a block, and that it has as many rows as its list entry says. `keep` is given each row."""
    header = read_header(data)
    outline = Outline()
    for entry in header.stripes:
        base = PAGE * entry.page
        part = data[base : base + PAGE * entry.pages]
        try:
            rows = read_stripe(part, header.form == 2, entry, outline.last)
        except Malformed as fault:
            raise Malformed(base + min(fault.at, len(part)), fault.expected) from None
        for row in rows:
            outline.add(row)
            if keep:
                keep(row)
    check_tail(data, header, outline.entries)
    if header.form != (2 if outline.rich else 1):
        told = "form 2, since a row has" if outline.rich else "form 1, since no row has"
        raise Malformed(0, f"{told} an event or a link")
    if listed_rows is not None and listed_rows != outline.rows:
        raise Malformed(0, f"{listed_rows} rows, as the list says, not {outline.rows}")
    return outline
