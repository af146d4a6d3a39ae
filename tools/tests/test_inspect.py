"""Tests of tools/inspect: worked bytes of the format pages, stores of an independent writer, and broken files."""
from __future__ import annotations

import json
import os
import random
import subprocess
import sys
import tempfile
import tracemalloc
import unittest
from typing import Any, Callable, Dict, List, Optional, Tuple

HERE = os.path.dirname(os.path.abspath(__file__))
TOOLS = os.path.dirname(HERE)
sys.dont_write_bytecode = True
sys.path[:0] = [TOOLS, HERE]

import block_format
import store_format
import store_report
import store_writer as writer
from store_format import Malformed, Row, SegmentFacts, Span
from store_writer import span, span_id, trace

TOOL = os.path.join(TOOLS, "inspect")
PAGE = 4096
HOSTILE = "\x1b]0;owned\x07\x1b[2J\r\n\u202egnp"


def hexed(text: str) -> bytes:
    return bytes.fromhex(text)


def made_attrs(attrs: store_format.Attributes) -> List[Tuple[str, Any]]:
    return [(key, value) for key, _, value in attrs]


def made_span(it: Span) -> writer.Made:
    """A span that was read, as the writer has it."""
    return {
        "trace": it.trace, "id": it.id, "parent": it.parent, "name": it.name, "kind": it.kind, "start": it.start,
        "end": it.end, "status": it.status, "message": it.message, "attrs": made_attrs(it.attrs),
        "resource": made_attrs(it.resource),
        "scope": (it.scope[0], it.scope[1], made_attrs(it.scope[2])),
        "events": [(time, name, made_attrs(attrs)) for time, name, attrs in it.events],
        "links": [(of, id_, made_attrs(attrs)) for of, id_, attrs in it.links],
    }


def made_row(it: Row) -> writer.MadeRow:
    return it.push, it.position, made_span(it.span)


def read_segment(data: bytes, first: int = 0) -> Tuple[SegmentFacts, List[List[writer.Made]]]:
    """What is read of a segment, and its batches."""
    facts, rows = SegmentFacts(first), []
    store_format.read_segment(data, facts, rows.append)
    batches: List[List[writer.Made]] = [[] for _ in range(facts.records)]
    for row in rows:
        assert row.position == len(batches[row.push - first])
        batches[row.push - first].append(made_span(row.span))
    return facts, batches


def read_block(data: bytes, listed: Optional[int] = None) -> List[writer.MadeRow]:
    rows: List[Row] = []
    block_format.check_block(data, listed, rows.append)
    return [made_row(it) for it in rows]


def breaks_at(call: Callable[[], object]) -> Optional[int]:
    """Where the bytes that the call reads are malformed."""
    try:
        call()
    except Malformed as fault:
        assert fault.expected and fault.expected.isprintable(), fault.expected
        return fault.at
    return None


def changed(data: bytes, at: int, new: bytes) -> bytes:
    return data[:at] + new + data[at + len(new) :]


# ---- spans that the tests share


RESOURCE = [("service.name", "shop"), ("pid", 4711)]
SCOPE = ("io.tomcat", "2.6", [("on", True), ("off", False)])


def rich_spans() -> List[writer.Made]:
    return [
        span(3, 1, name="GET /", kind=2, start=100, end=2**64 - 1, status=1, resource=RESOURCE, scope=SCOPE,
             attrs=[("a", -(2**63)), ("b", 2**63 - 1), ("c", ""), ("d", "é")]),
        span(3, 2, parent=span_id(1), name="é" * 100, kind=5, start=0, end=7, status=2, message="out of money",
             resource=RESOURCE, scope=SCOPE, events=[(9, "exception", [("stack", "x" * 200)]), (10, "", [])]),
        span(4, 2, kind=1, resource=[("1", 1), ("t", True)], links=[(trace(9), span_id(8), [("n", 5)])]),
        span(4, 3, kind=3, resource=[("1", True), ("t", 1)]),
        span(4, 4, kind=4, resource=[("1", True), ("t", 1)], scope=("x", "", [])),
    ]


def plain_spans(count: int) -> List[writer.Made]:
    """So many spans of as many traces, without events or links, in block order."""
    numbers = range(1, count + 1)
    return [span(at, at, name=f"name {at % 7}", start=999 + at, end=1999 + at, kind=at % 6) for at in numbers]


def rows_of(spans: List[writer.Made], push: int = 0) -> List[writer.MadeRow]:
    return [(push, at, it) for at, it in enumerate(spans)]


# ---- the pages' own examples


class ListPage(unittest.TestCase):
    NEW = hexed("01 54534c31 00 03000000 0000000000000000 01000000 0000000000000000 02000000 0000000000000000")

    def test_new_store(self) -> None:
        self.assertEqual(len(self.NEW), 42)
        body = store_format.read_slot(0, self.NEW)
        self.assertEqual((body.generation, body.next_file, body.floor, body.length), (0, 3, 0, 42))
        self.assertEqual((body.blocks, body.loose), ([], []))
        self.assertEqual([(it.file, it.first) for it in body.segments], [(2, 0)])
        self.assertEqual(writer.slot(0, 3, 0, [(2, 0)]), self.NEW)

    def test_vacant(self) -> None:
        for data in (b"", b"\1", self.NEW[:29], changed(self.NEW, 0, b"\0"), changed(self.NEW, 0, b"\x02")):
            self.assertIsNone(store_format.read_slot(0, data))

    def test_cut_short(self) -> None:
        whole = writer.slot(4, 9, 5, [(2, 0), (3, 5)], [(4, 0, 3), (5, 63, 1048576)], [6, 7])
        self.assertEqual(len(whole), 30 + 24 + 18 + 8)
        for size in range(30, len(whole)):
            self.assertEqual(breaks_at(lambda: store_format.read_slot(0, whole[:size])), size)
        self.assertIsNotNone(store_format.read_slot(0, whole + b"what stood there before"))

    def test_rules(self) -> None:
        whole = writer.slot(4, 9, 5, [(2, 4), (3, 5)], [(4, 0, 3), (5, 63, 1048576)], [6, 7])
        cases = [
            (1, b"TSL2", 1), (5, b"\5", 5), (18, bytes(4), 18), (30, b"\1", 30), (30, b"\x09", 30),
            (34, b"\6", 34), (46, b"\3", 46),
            (46, b"\4", 46), (46, writer.fixed(2**32, 8), 46), (10, b"\3", 34), (10, b"\6", 46),
            (42, b"\2", 42), (54, b"\3", 54),
            (58, b"\x40", 58), (59, bytes(4), 59), (68, writer.fixed(1048577, 4), 68), (72, b"\5", 72), (76, b"\6", 76),
            (6, b"\6", 72), (6, b"\2", 30),
        ]
        for at, new, told in cases:
            with self.subTest(at=at, new=new):
                self.assertEqual(breaks_at(lambda: store_format.read_slot(0, changed(whole, at, new))), told)

    def test_two_slots(self) -> None:
        for one, two, counts in ((0, 1, 1), (2, 1, 0), (254, 255, 1), (0, 255, 0)):
            first = store_format.read_slot(0, writer.slot(one, 3, 0, [(2, 0)]))
            second = store_format.read_slot(1, writer.slot(two, 3, 0, [(2, 0)]), first.generation)
            self.assertEqual(store_format.newer(first, second), counts)
        for two in (3, 5, 253):
            self.assertEqual(breaks_at(lambda: store_format.read_slot(1, writer.slot(two, 3, 0, [(2, 0)]), 0)), 5)


class LogPage(unittest.TestCase):
    EMPTY_BATCH = hexed("01 01 0900000000000000 0000000000000000 00 00")
    LONG_COUNT = hexed("01 01 0a00000000000000 0000000000000000 8000 00")
    ONE_SPAN = hexed(
        "01 01 4f00000000000000 0700000000000001 01 0101720102 01 000000 01"
        "09090909090909090909090909090909 0101010101010101 00"
        "0178 02 0500000000000000 0600000000000000 01 00 00 01 0500000000000000 0165 00 00 00"
    )

    def test_examples(self) -> None:
        facts, batches = read_segment(self.EMPTY_BATCH)
        self.assertEqual((len(self.EMPTY_BATCH), facts.gate, batches), (20, 19, [[]]))
        self.assertEqual(breaks_at(lambda: read_segment(self.LONG_COUNT)), 18)
        made = span(name="x", kind=2, start=5, end=6, status=1, resource=[("r", 1)], events=[(5, "e", [])])
        made.update(trace=b"\x09" * 16, id=b"\1" * 8)
        facts, batches = read_segment(self.ONE_SPAN, 7)
        self.assertEqual((len(self.ONE_SPAN), facts.gate, facts.records, facts.spans), (90, 89, 1, 1))
        self.assertEqual(batches, [[made]])
        self.assertEqual(writer.segment(7, [[made]]), self.ONE_SPAN)
        self.assertEqual(writer.segment(0, [[]]), self.EMPTY_BATCH)

    def test_cut_short(self) -> None:
        for size in range(90):
            self.assertEqual(breaks_at(lambda: read_segment(self.ONE_SPAN[:size], 7)), size)

    def test_rules(self) -> None:
        cases = [
            (0, b"\2", 0), (10, b"\6", 10), (16, b"\2", 10), (14, b"\1", 10), (2, b"\x4e", 88),
            (2, b"\x50", 89), (18, b"\x81\0", 18),
            (19, b"\2\1\xff", 20), (24, b"\0", 24), (28, b"\0", 28), (29, bytes(16), 29), (45, bytes(8), 45),
            (53, b"\2", 53),
            (53, b"\1" + bytes(8), 54), (54, b"\1\xff", 54), (56, b"\6", 56), (73, b"\3", 73), (76, b"\0", 78),
        ]
        for at, new, told in cases:
            with self.subTest(at=at, new=new):
                self.assertEqual(breaks_at(lambda: read_segment(changed(self.ONE_SPAN, at, new), 7)), told)
        self.assertEqual(breaks_at(lambda: read_segment(self.ONE_SPAN, 8)), 10)

    def test_form_and_last_byte(self) -> None:
        bare = changed(writer.body(0, [span()]), 7, b"\1") + b"\0\0"
        self.assertEqual(breaks_at(lambda: read_segment(b"\1" + writer.record(bare) + b"\0")), 10)
        self.assertEqual(breaks_at(lambda: read_segment(b"\1" + writer.record(bare + b"x") + b"\0")), 10)
        cut = b"\1" + writer.record(bare[:-1]) + b"\0"  # the count of links is missing: its place is the body's end
        self.assertEqual(breaks_at(lambda: read_segment(cut)), len(cut) - 1)
        rest = b"\1" + writer.record(writer.body(0, [span()]) + b"x") + b"\0"
        self.assertEqual(breaks_at(lambda: read_segment(rest)), len(rest) - 2)

    def test_runs_and_repeats(self) -> None:
        one = writer.body(0, [span(1, 1), span(1, 2)])
        again = one[:8] + b"\2" + one[9:]  # the second run of resources begins where the body ends
        data = b"\1" + writer.record(again + b"\0") + b"\0"
        self.assertEqual(breaks_at(lambda: read_segment(data)), 10 + len(again))
        scopes = b"\0" * 8 + b"\1\0\2" + (b"\0\0\0\1" + writer.log_span(span(), False)) * 2
        data = b"\1" + writer.record(scopes) + b"\0"
        self.assertEqual(breaks_at(lambda: read_segment(data)), 10 + 11 + 4 + len(writer.log_span(span(), False)))
        keys = b"\1" + writer.record(writer.body(0, [span(attrs=[("k", 1), ("k", 2)])])) + b"\0"
        self.assertEqual(breaks_at(lambda: read_segment(keys)), keys.rindex(b"\1k\1\4"))

    def test_most_spans(self) -> None:
        head = b"\0" * 8 + b"\1\0\1\0\0\0"
        spans = writer.log_span(span(), False) * 16384
        facts, _ = read_segment(b"\1" + writer.record(head + writer.var(16384) + spans) + b"\0")
        self.assertEqual(facts.spans, 16384)
        data = b"\1" + writer.record(head + writer.var(16385) + spans) + b"\0"
        self.assertEqual(breaks_at(lambda: read_segment(data)), 10 + len(head))


class BlockPage(unittest.TestCase):
    HEADER = hexed(
        "54534231 01000000 01000000 01000000 01000000"
        "0100000000000000 0100000000000000 0100000000000000 0100000000000000"
    ) + bytes(4044)
    STRIPE = hexed(
        "4100000000000000 02 00 05 6669727374 01 00 01 000000 01"
        "000000000000000000000000000000a1 00000000000000b1 00 00 00 01 00"
        "0100000000000000 0200000000000000 00 00 00 00 00"
    ) + bytes(4023)
    LARGER = hexed(
        "ca00000000000000 0c 0173016b016c0131017400 016102c3a9016d016e01650178 02 01000001 00 02 020301040201 050500 02"
        + ("00" * 15 + "a1") * 2
        + "00000000000000b1 00000000000000b2 000100000000000000b1 ac0200 0007 0607 0200"
        "01000000000000000100000000000000"
        "02000000000000000500000000000000 0102 0508 0001 0001 01090101 02010006000106 00 0109000000000000000a00 00 01"
        + "00" * 15 + "a2" + "00" * 7 + "b3 010b010a"
    ) + bytes(3886)

    def alone(self, data: bytes, extended: bool = True) -> List[writer.MadeRow]:
        return [made_row(it) for it in block_format.StripeReader(data, extended).read()]

    def test_header(self) -> None:
        self.assertEqual(len(self.HEADER), PAGE)
        header = block_format.read_header(self.HEADER)
        self.assertEqual((header.form, header.pages, header.index_pages, header.bloom_pages), (1, 1, 1, 1))
        self.assertEqual(header.stripes, [block_format.StripeEntry(1, 1, 1, 1, 1)])
        self.assertEqual((header.index_page(), header.all_pages(), header.rows()), (2, 4, 1))
        self.assertEqual(writer.header(1, [(1, 1, 1, 1)], 1, 1), self.HEADER)
        cases = [
            (0, b"TSB3", 0), (4, b"\2", 4), (8, b"\2", 28), (8, b"\0", 8), (4, b"\0", 4),
            (8, writer.fixed(128, 4), 4), (28, b"\0", 28),
            (28, b"\0\1", None), (28, b"\1\1", 28), (20, writer.fixed(2**51, 8), 20),
            (20, writer.fixed(2**51 - 1, 8), None),
            (52, b"\1", 52), (4095, b"\1", 4095), (4, b"\x21\0\0\0\1\x10", 8), (4, b"\x21\0\0\0\x80\x10", 4),
            (4, b"\x22\0\0\0\x80\x10", 8),
        ]
        for at, new, told in cases:
            with self.subTest(at=at, new=new):
                self.assertEqual(breaks_at(lambda: block_format.read_header(changed(self.HEADER, at, new))), told)
        for size in range(PAGE):
            self.assertEqual(breaks_at(lambda: block_format.read_header(self.HEADER[:size])), size)

    def test_most_stripes(self) -> None:
        most = writer.header(1, [(1, 256, 1, 1)] * 4096, 1, 1)
        self.assertEqual((len(most), block_format.read_header(most).rows()), (33 * PAGE, 1048576))
        more = writer.header(1, [(1, 256, 1, 1)] * 4097, 1, 1)
        self.assertEqual(breaks_at(lambda: block_format.read_header(more)), 8)

    def test_stripe(self) -> None:
        rows = [(0, 0, span(0xA1, name="first"))]
        self.assertEqual(self.alone(self.STRIPE, False), rows)
        self.assertEqual(writer.stripe(rows, False), self.STRIPE)

    def test_larger(self) -> None:
        one = span(0xA1, kind=2, name="a", resource=[("s", "k")], scope=("l", "1", [("t", True)]), attrs=[("n", -1)],
                   status=1)
        two = span(0xA1, 0xB2, parent=span_id(0xB1), name="é", end=5, status=2, message="m",
                   attrs=[("k", "a"), ("s", 3)], events=[(9, "e", [])],
                   links=[(trace(0xA2), span_id(0xB3), [("x", 5)])])
        self.assertEqual(len(self.LARGER), PAGE)
        self.assertEqual(self.alone(self.LARGER), [(300, 0, one), (0, 7, two)])
        self.assertEqual(writer.stripe([(300, 0, one), (0, 7, two)], True), self.LARGER)

    def test_what_other_bytes_make_of_it(self) -> None:
        cases = [
            ([(0, "c9")], 209), ([(0, "cb")], 210), ([(8, "0d")], 39), ([(9, "8000")], 9), ([(12, "73")], 11),
            ([(49, "8102")], 0),
            ([(100, "00" * 8)], 100), ([(111, "8080808010")], 111), ([(113, "08")], 113), ([(154, "00")], 38),
            ([(154, "00"), (207, "0a")], 31), ([(154, "00"), (208, "03")], 38), ([(207, "0a")], 31),
            ([(117, "02")], 0), ([(210, "01")], 210),
        ]
        for changes, told in cases:
            data = self.LARGER
            for at, new in changes:
                data = changed(data, at, hexed(new))
            with self.subTest(changes=changes):
                self.assertEqual(breaks_at(lambda: self.alone(data)), told)
        for size in [*range(230), *range(230, PAGE, 61), PAGE - 1]:
            self.assertEqual(breaks_at(lambda: self.alone(self.LARGER[:size])), size)
        self.assertEqual(breaks_at(lambda: self.alone(self.LARGER + b"\0")), PAGE)

    def test_index_and_filters(self) -> None:
        self.assertEqual(block_format.hash_of(b""), 0xCBF29CE484222325)
        self.assertEqual(block_format.hash_of(b"a"), 0xAF63DC4C8601EC8C)
        entries = [block_format.IndexEntry(trace(0xA1), 0, 257)]
        index = hexed("000000000000000000000000000000a1 00000000 01010000") + bytes(4072)
        self.assertEqual(block_format.index_of(entries), index)
        filters = bytearray(PAGE)
        for at, value in ((217, 2), (1279, 0x80), (2454, 1), (2587, 0x80)):
            filters[at] = value
        self.assertEqual(block_format.filters_of(entries), bytes(filters))
        rows = [(0, at, span(0xA1, at + 1)) for at in range(257)]
        self.assertEqual(writer.block(rows)[-2 * PAGE :], index + bytes(filters))
        self.assertEqual(read_block(writer.block(rows), 257), rows)


# ---- what the writer writes


class ReadBack(unittest.TestCase):
    def test_segments(self) -> None:
        batches = [rich_spans(), [], plain_spans(300), rich_spans()[:1]]
        data = writer.segment(5, batches)
        facts, found = read_segment(data, 5)
        self.assertEqual((found, facts.records, facts.spans, facts.gate), (batches, 4, 306, len(data) - 1))

    def test_blocks(self) -> None:
        for spans in (rich_spans(), plain_spans(1), plain_spans(256), plain_spans(600), plain_spans(2100)):
            rows = writer.in_order(rows_of(spans, 3))
            data = writer.block(rows)
            self.assertEqual(read_block(data, len(rows)), rows)
            header = block_format.read_header(data)
            traces = len({it["trace"] for it in spans})
            index = data[PAGE * header.index_page() : PAGE * (header.index_page() + header.index_pages)]
            self.assertEqual((header.rows(), header.all_pages() * PAGE), (len(rows), len(data)))
            self.assertEqual(block_format.count_traces(index), traces)
            self.assertEqual((header.index_pages, header.bloom_pages), (-(-traces // 170), -(-traces // 2048)))


# ---- broken blocks


class BrokenBlocks(unittest.TestCase):
    def setUp(self) -> None:
        self.rows = writer.in_order(rows_of(rich_spans()))
        self.data = writer.block(self.rows)
        self.assertEqual(len(self.data), 4 * PAGE)

    def breaks(self, data: bytes, listed: Optional[int] = None) -> Optional[int]:
        return breaks_at(lambda: block_format.check_block(data, listed))

    def test_cut_short(self) -> None:
        ends = (PAGE - 1, 2 * PAGE, 3 * PAGE, 4 * PAGE - 1)
        for size in [*range(200), *range(200, 4 * PAGE, 61), *range(PAGE, PAGE + 60), *ends]:
            self.assertEqual(self.breaks(self.data[:size]), size)
        self.assertEqual(self.breaks(self.data + b"\0"), 4 * PAGE)
        self.assertEqual(self.breaks(self.data + bytes(PAGE)), 4 * PAGE)

    def test_flips_are_told_at_themselves(self) -> None:
        content = 8 + int.from_bytes(self.data[PAGE : PAGE + 8], "little")
        for first, last in ((52, PAGE), (PAGE + content, 2 * PAGE), (2 * PAGE, 3 * PAGE), (3 * PAGE, 4 * PAGE)):
            for at in [first, *range(first + 1, last - 1, 97), last - 1]:
                self.assertEqual(self.breaks(changed(self.data, at, bytes([self.data[at] ^ 16]))), at)

    def test_entries_and_sums(self) -> None:
        self.assertEqual(self.breaks(self.data, 5), None)
        self.assertEqual(self.breaks(self.data, 6), 0)
        for at in (28, 36, 44):
            self.assertEqual(self.breaks(changed(self.data, at, bytes([self.data[at] + 1]))), PAGE)
        self.assertEqual(self.breaks(changed(self.data, 20, b"\2")), PAGE)
        self.assertEqual(self.breaks(changed(self.data, 20, b"\0")), PAGE)
        self.assertEqual(self.breaks(changed(self.data, 12, b"\2")), 12)
        self.assertEqual(self.breaks(changed(self.data, 16, b"\0")), 16)
        self.assertEqual(self.breaks(writer.block(rows_of(plain_spans(3)), form=2)), 0)

    def test_entry_before_a_later_field(self) -> None:
        """A stripe that disagrees with its entry is malformed at its first byte, if what disagrees can be read."""
        one = writer.block([(0, 0, span(name="first"))])
        later = changed(one, PAGE + 68, b"\3")  # the status
        self.assertEqual((self.breaks(one), self.breaks(later)), (None, PAGE + 68))
        self.assertEqual(self.breaks(changed(later, 36, writer.fixed(3, 8) * 2)), PAGE)
        self.assertEqual(self.breaks(changed(later, 28, b"\2")), PAGE)
        early = changed(one, PAGE + 51, b"\6")  # the kind, which stands before the starts
        self.assertEqual(self.breaks(early), PAGE + 51)
        self.assertEqual(self.breaks(changed(early, 36, writer.fixed(3, 8) * 2)), PAGE + 51)
        self.assertEqual(self.breaks(changed(early, 28, b"\2")), PAGE)
        self.assertEqual(self.breaks(changed(early, 36, b"\7")), PAGE)

    def test_order(self) -> None:
        rows = rows_of(plain_spans(257))
        whole = writer.block(rows)
        index = PAGE * block_format.read_header(whole).index_page()
        last = index - PAGE
        at = whole.index(trace(257), last)
        self.assertEqual(self.breaks(whole), None)
        self.assertEqual(self.breaks(changed(whole, at, trace(1))), last)
        # In the trace before it the row is in order, and that trace has a row more: entry 255, the 86th of its page.
        self.assertEqual(self.breaks(changed(whole, at, trace(256))), index + PAGE + 85 * 24 + 20)


# ---- any bytes


class AnyBytes(unittest.TestCase):
    """Bytes are malformed at one of them or at their end; else what they stand for is written as just these bytes."""

    def mutants(self, data: bytes, count: int, places: Callable[[random.Random], int]) -> List[bytes]:
        chance = random.Random(7)
        made = []
        for _ in range(count):
            mutant = bytearray(data)
            for _ in range(chance.choice((1, 1, 2, 3))):
                at = min(places(chance), len(mutant) - 1)
                way = chance.randrange(4)
                if way == 0:
                    mutant[at] ^= 1 << chance.randrange(8)
                elif way == 1:
                    mutant[at] = chance.choice((0, 1, 2, 3, 127, 128, 255))
                elif way == 2:
                    mutant[at] = (mutant[at] + chance.choice((1, 255))) % 256
                else:
                    mutant[at : at + 1] = chance.choice((b"", b"\0\0", b"\x80\0", bytes([mutant[at], mutant[at]])))
            made.append(bytes(mutant))
        return made

    def test_segments(self) -> None:
        data = writer.segment(0, [rich_spans(), [], rich_spans()[:2]])
        kept = 0
        for mutant in self.mutants(data, 600, lambda chance: chance.randrange(len(data) - 8)):
            facts = SegmentFacts(0)
            at = breaks_at(lambda: store_format.read_segment(mutant, facts))
            if at is None:
                facts, batches = read_segment(mutant)
                self.assertEqual(writer.segment(0, batches)[:-1], mutant[: facts.gate])
                kept += 1
            else:
                self.assertLessEqual(at, len(mutant))
        self.assertGreater(kept, 20)

    def test_blocks(self) -> None:
        data = writer.block(rows_of(rich_spans()))
        content = 8 + int.from_bytes(data[PAGE : PAGE + 8], "little")
        kept = 0
        places = [*range(60), *range(PAGE, PAGE + content)]
        for mutant in self.mutants(data, 600, lambda chance: chance.choice(places)):
            at = breaks_at(lambda: block_format.check_block(mutant))
            if at is None:
                self.assertEqual(writer.block(read_block(mutant)), mutant)
                kept += 1
            else:
                self.assertLessEqual(at, len(mutant))
        self.assertGreater(kept, 20)

    def test_lists(self) -> None:
        data = writer.slot(4, 9, 5, [(2, 4), (3, 5)], [(4, 0, 3), (5, 63, 1048576)], [6, 7])
        for mutant in self.mutants(data, 600, lambda chance: chance.randrange(1, len(data))):
            at = breaks_at(lambda: store_format.read_slot(0, mutant))
            if at is not None:
                self.assertLessEqual(at, len(mutant))
                continue
            it = store_format.read_slot(0, mutant)
            if it:
                segments = [(ref.file, ref.first) for ref in it.segments]
                blocks = [(ref.file, ref.level, ref.rows) for ref in it.blocks]
                again = writer.slot(it.generation, it.next_file, it.floor, segments, blocks, it.loose)
                self.assertEqual(again, mutant[: it.length])


class LyingCounts(unittest.TestCase):
    """No count that a file holds sizes an allocation."""

    def within(self, call: Callable[[], object]) -> Optional[int]:
        tracemalloc.start()
        try:
            return breaks_at(call)
        finally:
            peak = tracemalloc.get_traced_memory()[1]
            tracemalloc.stop()
            self.assertLess(peak, 3_000_000)

    def test_lists(self) -> None:
        for at in (18, 22, 26):
            data = changed(writer.slot(0, 9, 0, [(2, 0)]), at, b"\xff" * 4)
            self.assertIsNotNone(self.within(lambda: store_format.read_slot(0, data)))

    def test_segments(self) -> None:
        huge = writer.var(2**64 - 1)
        spans = [span(attrs=[("k", "v")], events=[(1, "e", [])])]
        body = writer.body(0, spans)
        for at in range(8, len(body)):
            for data in (writer.record(body[:at] + huge + body[at + 1 :]), writer.record(body[:at] + huge)[: at + 12]):
                self.within(lambda: store_format.read_segment(b"\1" + data + b"\0", SegmentFacts(0)))
        self.assertEqual(self.within(lambda: read_segment(b"\1\1" + b"\xff" * 8 + body)), 10 + len(body))

    def test_blocks(self) -> None:
        data = writer.block(rows_of(rich_spans()))
        huge = writer.var(2**64 - 1)
        for at in range(PAGE + 8, PAGE + 300, 3):
            self.within(lambda: block_format.check_block(changed(data, at, huge)))
        self.assertEqual(self.within(lambda: block_format.check_block(changed(data, PAGE, b"\xff" * 8))), PAGE)
        self.assertEqual(self.within(lambda: block_format.check_block(changed(data, 12, b"\xff" * 4))), 12)
        self.assertEqual(self.within(lambda: block_format.check_block(changed(data, 16, b"\xff" * 4))), 16)
        self.assertEqual(self.within(lambda: block_format.check_block(changed(data, 20, b"\xff" * 5))), PAGE)
        self.assertEqual(self.within(lambda: block_format.check_block(changed(data, 4, b"\xff" * 8))), 4)


# ---- folders


def stored(count: int = 300) -> Dict[int, bytes]:
    """The files of a store: two segments, blocks of two levels, of which one has so many rows, and two loose files."""
    joined, flushed = rows_of(rich_spans(), 0), rows_of(plain_spans(count), 1)
    return {
        0: writer.slot(6, 11, 2, [(2, 1), (8, 2)], [(5, 1, 5), (7, 0, count)], [3, 4]),
        1: writer.slot(5, 9, 1, [(2, 1)], [(3, 0, 2), (4, 0, 3)]),
        2: writer.segment(1, [plain_spans(count)]),
        3: writer.block(joined[:2]),
        4: writer.block(joined[2:]),
        5: writer.block(joined),
        7: writer.block(flushed),
        8: writer.segment(2, [rich_spans(), [], plain_spans(2)]),
    }


class Folders(unittest.TestCase):
    def setUp(self) -> None:
        kept = tempfile.TemporaryDirectory()
        self.addCleanup(kept.cleanup)
        self.folder = os.path.join(kept.name, "store")
        os.mkdir(self.folder)

    def write(self, files: Dict[int, bytes]) -> None:
        writer.write(self.folder, files)

    def run_tool(self, *words: str) -> Tuple[int, str]:
        command = [sys.executable, TOOL, *words]
        ran = subprocess.run(command, stdout=subprocess.PIPE, stderr=subprocess.STDOUT, timeout=60)
        return ran.returncode, ran.stdout.decode()

    def check(self) -> store_report.Survey:
        found = store_report.survey(self.folder, True)
        self.assertTrue(all(it.isprintable() or it == "\n" for it in store_report.text_of(found)))
        return found

    def refused(self, files: Dict[int, bytes]) -> Optional[Tuple[int, int]]:
        self.write(files)
        found = self.check()
        return (found.refused.file, found.refused.at) if found.refused else None


class GoodFolders(Folders):
    def test_a_store(self) -> None:
        self.write(stored())
        found = self.check()
        self.assertEqual([(it.state, it.generation, it.bytes, it.counts) for it in found.slots],
                         [("open", 6, 80, True), ("open", 5, 60, False)])
        self.assertEqual((found.next_file, found.floor, found.pushes), (11, 2, 5))
        self.assertEqual((found.malformed, found.refused), ([], None))
        self.assertEqual([(it.file, it.first, it.records, it.spans, it.commit_byte) for it in found.segments],
                         [(2, 1, 1, 300, 0), (8, 2, 3, 7, 0)])
        self.assertEqual([(it.file, it.level, it.rows, it.form, it.stripes, it.traces) for it in found.blocks],
                         [(5, 1, 5, 2, 1, 2), (7, 0, 300, 1, 2, 300)])
        self.assertTrue(all(it.bytes == PAGE * it.pages for it in found.blocks))
        self.assertEqual([(it.earliest, it.latest) for it in found.blocks], [(0, 100), (1000, 1299)])
        self.assertEqual([it.file for it in found.loose], [3, 4])
        self.assertEqual(len(found.cleaning), 2)

    def times(self) -> Dict[str, int]:
        """The files of the folder, and when each was written last."""
        return {it: os.stat(os.path.join(self.folder, it)).st_mtime_ns for it in os.listdir(self.folder)}

    def test_command(self) -> None:
        self.write(stored())
        before = self.times()
        for words in ([], ["--check"]):
            status, text = self.run_tool(self.folder, *words)
            self.assertEqual((status, text.split("\n")[0]), (0, store_report.NOTICE[0]))
            self.assertIn("nothing that this tool says is proved", text.lower())
            status, text = self.run_tool("--json", *words, self.folder)
            self.assertEqual((status, json.loads(text)["blocks"][1]["rows"]), (0, 300))
        self.assertEqual(self.times(), before)

    def test_usage(self) -> None:
        for words in ([], ["--checks", self.folder], [self.folder, self.folder], [self.folder + "/none"], [TOOL]):
            self.assertEqual(self.run_tool(*words)[0], 2)
        status, text = self.run_tool("--help")
        self.assertEqual(status, 0)
        self.assertIn("a running program may change files meanwhile", text)

    def test_no_store(self) -> None:
        found = self.check()
        self.assertEqual((found.listed_by, found.slots[0].state), (None, "vacant"))
        self.assertEqual((found.malformed, found.cleaning), ([], []))
        self.assertEqual(self.run_tool(self.folder, "--check")[0], 0)

    def test_other_files(self) -> None:
        self.write(stored())
        names = ["lock", "02.dat", "4294967296.dat", "-1.dat", "notes.txt", "\x1b[31mred\n.dat", "é", "9.dat.swp"]
        for name in names:
            open(os.path.join(self.folder, name), "w").close()
        with open(os.path.join(os.fsencode(self.folder), b"\xff\x9b"), "w"):
            pass
        found = self.check()
        self.assertEqual((len(found.others), found.malformed), (8, []))
        status, text = self.run_tool(self.folder, "--check")
        self.assertEqual((status, text.isascii(), text.replace("\n", "").isprintable()), (0, True, True))
        self.assertEqual(self.run_tool(self.folder, "--json")[0], 0)

    def test_what_is_no_file(self) -> None:
        self.write(stored())
        os.mkdir(os.path.join(self.folder, "12.dat"))
        self.assertEqual(self.run_tool(self.folder)[0], 2)
        os.rmdir(os.path.join(self.folder, "12.dat"))
        os.mkfifo(os.path.join(self.folder, "12.dat"))
        self.assertEqual(self.run_tool(self.folder)[0], 2)

    def test_hostile_names(self) -> None:
        spans = [span(1, 1, name=HOSTILE, message=HOSTILE, attrs=[(HOSTILE, HOSTILE)], resource=[(HOSTILE, 1)])]
        slot = writer.slot(0, 4, 0, [(2, 0)], [(3, 0, 1)])
        self.assertIsNone(self.refused({0: slot, 2: writer.segment(0, [spans]), 3: writer.block(rows_of(spans))}))
        again = [span(1, 1, attrs=[(HOSTILE, 1), (HOSTILE, 2)])]
        self.assertEqual(self.refused({2: writer.segment(0, [again])})[0], 2)
        status, text = self.run_tool(self.folder, "--check")
        self.assertEqual((status, text.isascii(), text.replace("\n", "").isprintable()), (1, True, True))
        self.assertIn("\\x1b]0;owned", text)


class Leftovers(Folders):
    def test_after_a_crash(self) -> None:
        files = stored()
        record = writer.record(writer.body(5, plain_spans(4)), gate=0)
        files[8] = files[8][:-1] + record + b"\0"
        files[1] = changed(files[1], 0, b"\0")
        files[6] = b"left"
        files[9] = b""
        files[11] = writer.segment(5, [])
        self.assertIsNone(self.refused(files))
        found = self.check()
        self.assertEqual((found.slots[1].state, found.pushes), ("closed", 5))
        self.assertEqual((found.segments[1].bytes_after, found.segments[1].unopened_spans), (len(record), 4))
        self.assertEqual([(it.file, it.bytes) for it in found.unnamed], [(6, 4), (9, 0), (11, 2)])
        self.assertIn("no opening empties it", found.unnamed[0].note)
        self.assertEqual(len(found.cleaning), 5)
        self.write({8: files[8][:-5]})
        self.assertEqual(self.check().segments[1].unopened_spans, None)

    def test_before_the_first_list(self) -> None:
        self.assertIsNone(self.refused({2: b"\1\0", 0: b"\0TSL1"}))
        found = self.check()
        self.assertEqual((found.listed_by, len(found.cleaning), found.unnamed[0].file), (None, 1, 2))


class BrokenFolders(Folders):
    def test_which_is_told_first(self) -> None:
        files = stored()
        broken = {0: changed(files[0], 1, b"X"), 1: changed(files[1], 30, b"\0"), 5: changed(files[5], 0, b"X"),
                  7: files[7][:5000], 2: b"\2", 8: b""}
        self.assertEqual(self.refused({**files, **broken}), (0, 1))
        self.assertEqual([(it.file, it.at) for it in self.check().malformed], [(0, 1), (1, 30)])
        self.assertEqual(self.refused({0: files[0]}), (1, 30))
        self.assertEqual(self.refused({1: files[1]}), (5, 0))
        self.assertEqual([(it.file, it.at) for it in self.check().malformed], [(5, 0), (7, 5000), (2, 0), (8, 0)])
        self.assertEqual(self.refused({5: files[5]}), (7, 5000))
        self.assertEqual(self.refused({7: files[7]}), (2, 0))
        self.assertEqual(self.refused({2: files[2]}), (8, 0))
        self.assertEqual(self.run_tool(self.folder, "--check")[0], 1)

    def test_generations(self) -> None:
        files = stored()
        self.assertEqual(self.refused({**files, 1: changed(files[1], 5, b"\3")}), (1, 5))
        self.assertFalse(any(it.counts for it in self.check().slots))

    def test_listed_and_missing(self) -> None:
        files = stored()
        del files[5], files[8]
        self.assertEqual(self.refused(files), (5, 0))
        self.assertEqual([(it.file, it.at) for it in self.check().malformed], [(5, 0), (8, 0)])

    def test_segments_lead_on(self) -> None:
        files = stored()
        files[2] = writer.segment(1, [plain_spans(3), []])
        self.assertEqual(self.refused(files), (2, len(files[2]) - 1))

    def test_rows_of_the_list(self) -> None:
        files = stored()
        files[0] = changed(files[0], 59, b"\6")
        self.assertEqual(self.refused(files), (5, 0))

    def test_any_bytes(self) -> None:
        """Whatever the files hold, there is an answer."""
        files, chance = stored(3), random.Random(3)
        for _ in range(40):
            number = chance.choice(list(files))
            mutant = bytearray(files[number])
            for _ in range(chance.randrange(1, 9)):
                at = chance.randrange(min(len(mutant), chance.choice((100, 5000))))
                mutant[at] = chance.choice((0, 1, 255, chance.randrange(256)))
            if chance.random() < 0.3:
                del mutant[chance.randrange(len(mutant)) :]
            writer.write(self.folder, {**files, number: bytes(mutant)})
            for check in (False, True):
                found = store_report.survey(self.folder, check)
                self.assertTrue(store_report.text_of(found).startswith(store_report.NOTICE[0]))
                for it in found.malformed:
                    size = len(mutant) if it.file == number else len(files.get(it.file, b""))
                    self.assertTrue(0 <= it.at <= size, it)

    def test_far_offsets(self) -> None:
        files = stored()
        files[5] = changed(files[5], 20, writer.fixed(2**51 - 1, 8))
        self.assertEqual(self.refused(files), (5, PAGE))
        self.assertEqual(store_report.survey(self.folder, False).blocks[0].pages, 2**51 + 2)

    def test_one_slot(self) -> None:
        """A slot that is malformed refuses the store; the other one's list is surveyed all the same."""
        files = stored()
        self.assertEqual(self.refused({**files, 1: changed(files[1], 1, b"X")}), (1, 1))
        found = self.check()
        self.assertEqual((found.listed_by, found.slots[0].counts, len(found.blocks)), (0, False, 2))


if __name__ == "__main__":
    unittest.main()
