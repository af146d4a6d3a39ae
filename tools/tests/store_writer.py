"""A little writer of store files by docs/LIST-FORMAT.md, docs/LOG-FORMAT.md and docs/BLOCK-FORMAT.md.

It shares nothing with the tool that it tests but these pages. Spans are dictionaries; an attribute is a key and a str,
a bool or an int.
"""
from __future__ import annotations

import os
from itertools import groupby
from typing import Any, Dict, Iterable, List, Optional, Sequence, Tuple

Made = Dict[str, Any]
Attrs = Sequence[Tuple[str, Any]]
PAGE = 4096


def trace(number: int) -> bytes:
    return number.to_bytes(16, "big")


def span_id(number: int) -> bytes:
    return number.to_bytes(8, "big")


def span(at: int = 1, id: int = 0xB1, **parts: Any) -> Made:
    """A span of trace `at`, with as little as a span has, but for the given parts."""
    made: Made = {
        "trace": trace(at), "id": span_id(id), "parent": None, "name": "", "kind": 0, "start": 1, "end": 2, "status": 0,
        "message": "", "attrs": [], "resource": [], "scope": ("", "", []), "events": [], "links": [],
    }
    return {**made, **parts}


# ---- fields


def fixed(number: int, size: int) -> bytes:
    return bytes(number >> 8 * at & 255 for at in range(size))


def var(number: int) -> bytes:
    return bytes([number]) if number < 128 else bytes([number % 128 + 128]) + var(number // 128)


def zigzag(number: int) -> bytes:
    return var(2 * number if number >= 0 else -2 * number - 1)


def text(words: str) -> bytes:
    found = words.encode()
    return var(len(found)) + found


def padded(data: bytes) -> bytes:
    while len(data) % PAGE:
        data += bytes(PAGE - len(data) % PAGE)
    return data


class Plain:
    """Texts in full, as the log has them."""

    def text(self, words: str) -> bytes:
        return text(words)


class Numbered:
    """Texts as numbers of a table, in order of first use, as a stripe has them."""

    def __init__(self) -> None:
        self.texts: List[str] = []

    def text(self, words: str) -> bytes:
        if words not in self.texts:
            self.texts.append(words)
        return var(self.texts.index(words))


def value(texts: Any, it: Any) -> bytes:
    if isinstance(it, str):
        return b"\0" + texts.text(it)
    if isinstance(it, bool):
        return b"\2" + bytes([it])
    return b"\1" + zigzag(it)


def attrs(texts: Any, items: Attrs) -> bytes:
    return var(len(items)) + b"".join(texts.text(key) + value(texts, it) for key, it in items)


def scope(texts: Any, it: Tuple[str, str, Attrs]) -> bytes:
    return texts.text(it[0]) + texts.text(it[1]) + attrs(texts, it[2])


def parent(it: Optional[bytes]) -> bytes:
    return b"\0" if it is None else b"\1" + it


def events(texts: Any, items: Iterable[Tuple[int, str, Attrs]]) -> bytes:
    made = [fixed(time, 8) + texts.text(name) + attrs(texts, more) for time, name, more in items]
    return var(len(made)) + b"".join(made)


def links(texts: Any, items: Iterable[Tuple[bytes, bytes, Attrs]]) -> bytes:
    made = [trace_ + id_ + attrs(texts, more) for trace_, id_, more in items]
    return var(len(made)) + b"".join(made)


def is_rich(spans: Iterable[Made]) -> bool:
    return any(it["events"] or it["links"] for it in spans)


# ---- the list


def slot(
    generation: int, next_file: int, floor: int, segments: Sequence[Tuple[int, int]],
    blocks: Sequence[Tuple[int, int, int]] = (), loose: Sequence[int] = (), gate: int = 1,
) -> bytes:
    made = bytes([gate]) + b"TSL1" + bytes([generation]) + fixed(next_file, 4) + fixed(floor, 8)
    made += fixed(len(segments), 4) + fixed(len(blocks), 4) + fixed(len(loose), 4)
    made += b"".join(fixed(file, 4) + fixed(first, 8) for file, first in segments)
    made += b"".join(fixed(file, 4) + bytes([level]) + fixed(rows, 4) for file, level, rows in blocks)
    return made + b"".join(fixed(file, 4) for file in loose)


# ---- the log


def log_span(it: Made, rich: bool) -> bytes:
    texts = Plain()
    made = it["trace"] + it["id"] + parent(it["parent"]) + text(it["name"]) + bytes([it["kind"]])
    made += fixed(it["start"], 8) + fixed(it["end"], 8) + bytes([it["status"]]) + text(it["message"])
    made += attrs(texts, it["attrs"])
    return made + events(texts, it["events"]) + links(texts, it["links"]) if rich else made


def runs(spans: Sequence[Made], part: str) -> List[List[Made]]:
    return [list(run) for _, run in groupby(spans, key=lambda it: repr(it[part]))]


def body(number: int, spans: Sequence[Made]) -> bytes:
    rich, texts = is_rich(spans), Plain()
    made = fixed(number + (2**56 if rich else 0), 8) + var(len(runs(spans, "resource")))
    for of_resource in runs(spans, "resource"):
        made += attrs(texts, of_resource[0]["resource"]) + var(len(runs(of_resource, "scope")))
        for of_scope in runs(of_resource, "scope"):
            made += scope(texts, of_scope[0]["scope"]) + var(len(of_scope))
            made += b"".join(log_span(it, rich) for it in of_scope)
    return made


def record(of: bytes, gate: int = 1) -> bytes:
    return bytes([gate]) + fixed(len(of), 8) + of


def segment(first: int, batches: Sequence[Sequence[Made]]) -> bytes:
    return b"\1" + b"".join(record(body(first + at, spans)) for at, spans in enumerate(batches)) + b"\0"


# ---- blocks: a row is the number of its push, its position there, and its span


MadeRow = Tuple[int, int, Made]


def in_order(rows: Iterable[MadeRow]) -> List[MadeRow]:
    return sorted(rows, key=lambda row: (row[2]["trace"], row[2]["start"], row[2]["id"]))


def distinct(items: Iterable[Any]) -> List[Any]:
    found: List[Any] = []
    for it in items:
        if repr(it) not in map(repr, found):
            found.append(it)
    return found


def content(rows: Sequence[MadeRow], rich: bool) -> bytes:
    spans, texts = [row[2] for row in rows], Numbered()
    resources, scopes = distinct(it["resource"] for it in spans), distinct(it["scope"] for it in spans)
    made = var(len(resources)) + b"".join(attrs(texts, it) for it in resources)
    made += var(len(scopes)) + b"".join(scope(texts, it) for it in scopes) + var(len(rows))
    made += b"".join(it["trace"] for it in spans) + b"".join(it["id"] for it in spans)
    made += b"".join(parent(it["parent"]) for it in spans)
    made += b"".join(var(row[0]) for row in rows) + b"".join(var(row[1]) for row in rows)
    made += b"".join(texts.text(it["name"]) for it in spans) + bytes(it["kind"] for it in spans)
    made += b"".join(fixed(it["start"], 8) for it in spans) + b"".join(fixed(it["end"], 8) for it in spans)
    made += bytes(it["status"] for it in spans) + b"".join(texts.text(it["message"]) for it in spans)
    made += b"".join(var([repr(that) for that in resources].index(repr(it["resource"]))) for it in spans)
    made += b"".join(var([repr(that) for that in scopes].index(repr(it["scope"]))) for it in spans)
    made += b"".join(attrs(texts, it["attrs"]) for it in spans)
    if rich:
        made += b"".join(events(texts, it["events"]) for it in spans)
        made += b"".join(links(texts, it["links"]) for it in spans)
    return var(len(texts.texts)) + b"".join(text(it) for it in texts.texts) + made


def stripe(rows: Sequence[MadeRow], rich: bool) -> bytes:
    made = content(rows, rich)
    return padded(fixed(len(made), 8) + made)


def fnv(data: bytes) -> int:
    found = 0xCBF29CE484222325
    for byte in data:
        found = (found ^ byte) * 0x100000001B3 & 0xFFFFFFFFFFFFFFFF
    return found


def tail(rows: Sequence[MadeRow]) -> Tuple[List[bytes], List[bytes]]:
    """The pages of the index, and those of the Bloom filters."""
    entries, first = [], 0
    for id_, of_trace in groupby(row[2]["trace"] for row in rows):
        count = len(list(of_trace))
        entries.append((id_, first, count))
        first += count
    index = []
    for at in range(0, len(entries), 170):
        here = entries[at : at + 170]
        index.append(padded(b"".join(id_ + fixed(first, 4) + fixed(count, 4) for id_, first, count in here)))
    filters = [bytearray(PAGE) for _ in range((len(entries) + 2047) // 2048)]
    for id_, _, _ in entries:
        page, of_one = filters[fnv(id_) % len(filters)], fnv(id_ + b"\1")
        for group in range(4):
            bit = of_one >> 16 * group & 0x7FFF
            page[bit >> 3] |= 1 << (bit & 7)
    return index, [bytes(it) for it in filters]


def header(form: int, stripes: Sequence[Tuple[int, int, int, int]], index: int, filters: int) -> bytes:
    pages = (20 + 32 * len(stripes) + PAGE - 1) // PAGE
    made = b"TSB" + str(form).encode() + fixed(pages, 4) + fixed(len(stripes), 4) + fixed(index, 4) + fixed(filters, 4)
    return padded(made + b"".join(fixed(it, 8) for entry in stripes for it in entry))


def block(rows: Iterable[MadeRow], form: Optional[int] = None) -> bytes:
    """The block of these rows. `form` asks for another form than theirs."""
    ordered = in_order(rows)
    rich = is_rich(row[2] for row in ordered) if form is None else form == 2
    entries, stripes = [], []
    for at in range(0, len(ordered), 256):
        part = ordered[at : at + 256]
        starts = [row[2]["start"] for row in part]
        stripes.append(stripe(part, rich))
        entries.append((len(stripes[-1]) // PAGE, len(part), min(starts), max(starts)))
    index, filters = tail(ordered)
    return b"".join([header(2 if rich else 1, entries, len(index), len(filters)), *stripes, *index, *filters])


# ---- a folder


def write(folder: str, files: Dict[int, bytes]) -> None:
    for number, data in files.items():
        with open(os.path.join(folder, f"{number}.dat"), "wb") as made:
            made.write(data)
