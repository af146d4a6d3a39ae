"""Surveys the folder of a trace store: what its files hold, what is malformed, and what the next opening cleans.

Nothing here is proved. Files are opened for reading alone, and no lock is taken.

The program tells one place of a folder that is no store, `refused not-store file=F at=P`: the first slot that is
malformed, else the first such block in the order of the list, else the first such segment. `Survey.refused` is that
place, and it is meant to be the very same one, since both follow docs/*-FORMAT.md. They may differ where
- a running program changes files between two reads of this tool, which reads them one after another;
- the program ends with another status before it comes there: a file that the system can't read (4), or no memory (6).
Where the survey isn't asked to check, blocks are known by their headers alone, and only a slot's place is told as the
program's. Malformed places of further files the program doesn't tell. If one slot alone is malformed, the other one's
list is surveyed, though to the program no list counts.
"""
from __future__ import annotations

import os
import re
import stat
from dataclasses import dataclass, field
from datetime import datetime, timedelta, timezone
from typing import Dict, List, Optional, Tuple

from block_format import MOST_HEADER_PAGES, PAGE, Header, check_block, count_traces, pages_for, read_header
from store_format import (
    MOST_ROWS,
    SHORTEST_LIST,
    BlockRef,
    Malformed,
    SegmentFacts,
    SegmentRef,
    StoreList,
    newer,
    read_segment,
    read_slot,
    shown,
    unopened_record,
)

NOTICE = (
    "Nothing that this tool says is proved: it reads the files by docs/*-FORMAT.md, without the program.",
    "It takes no lock, so a running program may change files meanwhile.",
)
FILE_NAME = re.compile(r"(0|[1-9][0-9]{0,9})\.dat")
FIRST_FILE = 2


class Unreadable(Exception):
    """The folder, or one of its files, can't be read."""


# ---- files


class Folder:
    """The files of a folder, of which none is changed. File n is `n.dat`, and one that is missing is empty."""

    def __init__(self, path: str):
        self.path = path
        self.sizes: Dict[int, int] = {}
        self.others: List[str] = []
        try:
            with os.scandir(path) as entries:
                for name in sorted(it.name for it in entries):
                    self.add(name)
        except OSError as fault:
            raise Unreadable(f"{shown(path, 4096)}: {fault.strerror}") from None

    def add(self, name: str) -> None:
        match = FILE_NAME.fullmatch(name)
        if match and int(match[1]) < 2**32:
            try:
                found = os.stat(os.path.join(self.path, name))
            except FileNotFoundError:
                return  # A running program removed it, or it is a link to nowhere: the file is missing.
            if not stat.S_ISREG(found.st_mode):
                raise Unreadable(f"{shown(name)} is no file")
            self.sizes[int(match[1])] = found.st_size
        elif name != "lock":
            self.others.append(name)

    def size(self, file: int) -> int:
        return self.sizes.get(file, 0)

    def read(self, file: int, at: int = 0, most: Optional[int] = None) -> bytes:
        """The bytes of a file from an offset on, as many as there are up to the most."""
        if file not in self.sizes:
            return b""
        try:
            with open(os.path.join(self.path, f"{file}.dat"), "rb") as opened:
                left = os.fstat(opened.fileno()).st_size - at
                if left <= 0:
                    return b""
                opened.seek(at)
                return opened.read(left if most is None else min(most, left))
        except FileNotFoundError:
            return b""  # A running program removes files that are empty.
        except OSError as fault:
            raise Unreadable(f"{file}.dat: {fault.strerror}") from None


# ---- what is known


@dataclass
class Fault:
    """The first malformed byte of a file, and what was expected there."""

    file: int
    at: int
    expected: str


@dataclass
class SlotFacts:
    slot: int
    bytes: int
    state: str  # vacant, closed, open, malformed
    commit_byte: Optional[int]
    generation: Optional[int] = None
    counts: bool = False


@dataclass
class SegmentReport:
    file: int
    first: int
    records: int
    spans: int
    bytes: int
    gate: Optional[int]
    commit_byte: Optional[int]
    bytes_after: int
    unopened_spans: Optional[int]


@dataclass
class BlockReport:
    file: int
    level: int
    rows: int
    bytes: int
    form: Optional[int] = None
    pages: Optional[int] = None
    stripes: Optional[int] = None
    traces: Optional[int] = None
    earliest: Optional[int] = None
    latest: Optional[int] = None


@dataclass
class FileReport:
    file: int
    bytes: int
    note: str = ""


@dataclass
class Survey:
    """What was found in a folder."""

    folder: str
    checked: bool
    slots: List[SlotFacts] = field(default_factory=list)
    listed_by: Optional[int] = None
    next_file: int = FIRST_FILE
    floor: Optional[int] = None
    pushes: Optional[int] = None
    segments: List[SegmentReport] = field(default_factory=list)
    blocks: List[BlockReport] = field(default_factory=list)
    loose: List[FileReport] = field(default_factory=list)
    unnamed: List[FileReport] = field(default_factory=list)
    others: List[str] = field(default_factory=list)
    cleaning: List[str] = field(default_factory=list)
    malformed: List[Fault] = field(default_factory=list)
    refused: Optional[Fault] = None

    def fault(self, file: int, at: int, expected: str) -> None:
        self.malformed.append(Fault(file, at, expected))


# ---- surveying


class Surveyor:
    """Reads what a folder holds in the order in which the program does: slots, blocks, segments."""

    def __init__(self, folder: Folder, check: bool):
        self.folder = folder
        self.found = Survey(folder.path, check)

    def survey(self) -> Survey:
        found = self.found
        body = self.slots()
        if body:
            found.next_file, found.floor = body.next_file, body.floor
            for block in body.blocks:
                self.block(block)
            self.segments(body.segments)
            found.loose = [FileReport(it, self.folder.size(it)) for it in body.loose]
        self.unnamed(body)
        self.cleaning(body)
        found.others = self.folder.others
        if found.malformed and (found.checked or found.malformed[0].file < FIRST_FILE):
            found.refused = found.malformed[0]
        return found

    def slots(self) -> Optional[StoreList]:
        """The list that counts. If one slot is malformed, the other one's, which doesn't count."""
        lists: List[Optional[StoreList]] = []
        for slot in (0, 1):
            lists.append(self.slot(slot, lists[0].generation if slot == 1 and lists[0] else None))
        counting = newer(lists[0], lists[1])
        self.found.listed_by = counting
        if counting is None:
            return None
        self.found.slots[counting].counts = not self.found.malformed
        return lists[counting]

    def slot(self, slot: int, other: Optional[int]) -> Optional[StoreList]:
        data = self.folder.read(slot)
        facts = SlotFacts(slot, len(data), "vacant", data[0] if data else None)
        self.found.slots.append(facts)
        try:
            body = read_slot(slot, data, other)
        except Malformed as fault:
            facts.state = "malformed"
            self.found.fault(slot, fault.at, fault.expected)
            return None
        if body:
            facts.state, facts.generation = "open", body.generation
        elif len(data) >= SHORTEST_LIST:
            facts.state = "closed"
            self.found.cleaning.append(
                f"slot {slot} holds {len(data)} bytes after a closed commit byte: a list that was being written."
                " The next opening cuts it to its first byte"
            )
        return body

    def block(self, ref: BlockRef) -> None:
        """What a block's header tells, or all of it where that is asked for."""
        file = ref.file
        facts = BlockReport(file, ref.level, ref.rows, self.folder.size(file))
        self.found.blocks.append(facts)
        checked = self.found.checked
        data = self.folder.read(file, 0, None if checked else PAGE * MOST_HEADER_PAGES)
        try:
            self.describe(facts, read_header(data))
            if checked:
                check_block(data, ref.rows)
        except Malformed as fault:
            self.found.fault(file, fault.at, fault.expected)

    def describe(self, facts: BlockReport, header: Header) -> None:
        facts.form = header.form
        facts.pages = header.all_pages()
        facts.stripes = len(header.stripes)
        facts.earliest = min(it.earliest for it in header.stripes)
        facts.latest = max(it.latest for it in header.stripes)
        most = min(header.index_pages, pages_for(MOST_ROWS))
        facts.traces = count_traces(self.folder.read(facts.file, PAGE * header.index_page(), PAGE * most))

    def segments(self, refs: List[SegmentRef]) -> None:
        pushes: Optional[int] = None
        for ref, later in zip(refs, [*refs[1:], None]):
            facts = self.segment(ref, later is None)
            pushes = None if facts.gate is None else ref.first + facts.records
            if later and pushes not in (None, later.first):
                told = f"{later.first - ref.first} records, up to the next segment's {later.first}, not {facts.records}"
                self.found.fault(ref.file, facts.gate, told)
        self.found.pushes = pushes

    def segment(self, ref: SegmentRef, is_last: bool) -> SegmentFacts:
        data = self.folder.read(ref.file)
        facts = SegmentFacts(ref.first)
        try:
            read_segment(data, facts)
        except Malformed as fault:
            self.found.fault(ref.file, fault.at, fault.expected)
        gate = facts.gate
        after = 0 if gate is None else len(data) - gate - 1
        whole = unopened_record(data, facts)
        byte = None if gate is None else data[gate]
        self.found.segments.append(
            SegmentReport(ref.file, ref.first, facts.records, facts.spans, len(data), gate, byte, after, whole)
        )
        if after:
            record = "no whole record" if whole is None else f"a whole record of {whole} spans"
            later = "later records are written over them" if is_last else "they go when the file is emptied"
            self.found.cleaning.append(
                f"file {ref.file} has {after} bytes after its closed commit byte, {record}: of a push that wasn't"
                f" acknowledged. They don't count, and {later}"
            )
        return facts

    def unnamed(self, body: Optional[StoreList]) -> None:
        """Files from 2 on that the list doesn't name."""
        named = body.named() if body else set()
        for file, size in sorted(self.folder.sizes.items()):
            if file < FIRST_FILE or file in named:
                continue
            if not body and self.found.malformed:
                note = "no list says what it is"
            elif file >= self.found.next_file:
                note = "its number wasn't given out"
            else:
                note = "its number was given out: no opening empties it" if size else "empty"
            self.found.unnamed.append(FileReport(file, size, note))

    def cleaning(self, body: Optional[StoreList]) -> None:
        found = self.found
        for it in found.loose:
            found.cleaning.append(f"file {it.file} is loose, with {it.bytes} bytes: the next opening empties it")
        for it in found.unnamed:
            if it.bytes and it.file >= found.next_file and (body or not found.malformed):
                found.cleaning.append(
                    f"file {it.file} has {it.bytes} bytes, though its number wasn't given out (next file"
                    f" {found.next_file}): an unfinished job's. It is emptied when its number is given out"
                )


def survey(path: str, check: bool) -> Survey:
    """What is found in the folder of this path. Raises `Unreadable` where it can't be read."""
    return Surveyor(Folder(path), check).survey()


# ---- text


def moment(nanos: Optional[int]) -> str:
    """Nanoseconds since 1970 as a timestamp."""
    if nanos is None:
        return "-"
    seconds, rest = divmod(nanos, 10**9)
    when = datetime(1970, 1, 1, tzinfo=timezone.utc) + timedelta(seconds=seconds)
    return f"{when:%Y-%m-%dT%H:%M:%S}" + (f".{rest:09}".rstrip("0") if rest else "") + "Z"


def cell(value: object) -> str:
    return "-" if value is None else str(value)


def table(heads: Tuple[str, ...], rows: List[Tuple[object, ...]]) -> List[str]:
    """Aligned columns: numbers to the right, all else to the left. Without rows it is one word."""
    if not rows:
        return ["  none"]
    texts = [heads, *(tuple(cell(it) for it in row) for row in rows)]
    right = [all(isinstance(row[at], int) or row[at] is None for row in rows) for at in range(len(heads))]
    widths = [max(len(row[at]) for row in texts) for at in range(len(heads))]
    lines = []
    for row in texts:
        cells = (it.rjust(width) if side else it.ljust(width) for it, width, side in zip(row, widths, right))
        lines.append("  " + "  ".join(cells).rstrip())
    return lines


def gate_text(it: SegmentReport) -> str:
    """Whether the last commit byte of a segment closes it."""
    if it.gate is None:
        return "not reached"
    return f"closes at {it.gate}" + (f" (byte {it.commit_byte:02x})" if it.commit_byte else "")


def slot_lines(found: Survey) -> List[str]:
    rows = [(it.slot, it.state, it.generation, it.bytes, "counts" if it.counts else "") for it in found.slots]
    return ["slots of the list", *table(("slot", "state", "generation", "bytes", ""), rows)]


def list_line(found: Survey) -> str:
    if found.listed_by is None:
        why = "" if found.malformed else ": there is no store yet, and an opening would make one"
        return f"No list counts{why}."
    told = "" if found.slots[found.listed_by].counts else f"By slot {found.listed_by} alone, whose list doesn't count: "
    pushes = "" if found.pushes is None else f", {found.pushes} pushes"
    return f"{told}next file {found.next_file}, floor {found.floor}{pushes}"


def segment_lines(found: Survey) -> List[str]:
    heads = ("file", "first", "records", "spans", "bytes", "last commit byte", "after it")
    rows = [(it.file, it.first, it.records, it.spans, it.bytes, gate_text(it), it.bytes_after) for it in found.segments]
    return ["segments of the log", *table(heads, rows)]


def block_lines(found: Survey) -> List[str]:
    heads = ("file", "level", "rows", "traces", "stripes", "form", "pages", "bytes", "earliest start", "latest start")
    rows: List[Tuple[object, ...]] = []
    for it in found.blocks:
        told = (it.file, it.level, it.rows, it.traces, it.stripes, it.form, it.pages, it.bytes)
        rows.append((*told, moment(it.earliest), moment(it.latest)))
    return ["blocks", *table(heads, rows)]


def file_lines(found: Survey) -> List[str]:
    loose = [(it.file, it.bytes) for it in found.loose]
    lines = ["loose files, of which nothing is needed", *table(("file", "bytes"), loose)]
    rows = [(it.file, it.bytes, it.note) for it in found.unnamed]
    lines += ["", "files that the list doesn't name", *table(("file", "bytes", ""), rows)]
    if found.others:
        lines += ["", "in the folder, and none of a store's", *(f"  {shown(it)}" for it in found.others)]
    return lines


def verdict_lines(found: Survey) -> List[str]:
    lines = ["for the next opening to clean", *(f"  {it}" for it in found.cleaning or ["nothing"]), ""]
    if found.malformed:
        rows = [(it.file, it.at, it.expected) for it in found.malformed]
        lines += ["malformed", *table(("file", "at", "expected"), rows)]
        if found.refused:
            lines.append(f"  An opening says: refused not-store file={found.refused.file} at={found.refused.at}")
        return lines
    what = "all that the list names" if found.checked else "what was read; --check reads the blocks whole"
    lines.append(f"well formed: {what}")
    return lines


def text_of(found: Survey) -> str:
    parts = [
        [*NOTICE, f"folder {shown(found.folder, 4096)}"],
        slot_lines(found) + [f"  {list_line(found)}"],
        segment_lines(found),
        block_lines(found),
        file_lines(found),
        verdict_lines(found),
    ]
    return "\n\n".join("\n".join(it) for it in parts) + "\n"
