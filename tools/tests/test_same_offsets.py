"""The offsets at which tools/inspect finds bytes malformed are those that the program's own tests expect.

Bytes and offsets are taken from the tables in crates/blocks_tests and crates/disk_tests, as they stand there.
"""
from __future__ import annotations

import os
import re
import sys
import unittest
from typing import Callable, Dict, Iterator, List, Optional, Tuple

HERE = os.path.dirname(os.path.abspath(__file__))
TOP = os.path.dirname(os.path.dirname(HERE))
sys.dont_write_bytecode = True
sys.path[:0] = [os.path.join(TOP, "tools")]

import block_format
import store_format
from store_format import Malformed, SegmentFacts

PAGE = 4096
NUMBER = r"(?:0x[0-9a-f]+|\d+|b'.')"


class Source:
    """A file of tests: its constants, and the tables of its functions."""

    def __init__(self, *path: str):
        with open(os.path.join(TOP, "crates", *path), encoding="utf-8") as opened:
            self.text = re.sub(r"^\s*//.*$|(?<=,) //.*$", "", opened.read(), flags=re.M)

    def words(self, name: str) -> List[str]:
        found = re.search(rf'const {name}: &str = "(.*?)";', self.text, re.S)
        assert found, name
        return found[1].split()

    def page(self, name: str) -> bytes:
        return bytes(int(it, 16) for it in self.words(name) if re.fullmatch("[0-9a-f]{2}", it)).ljust(PAGE, b"\0")

    def offsets(self, name: str) -> List[Optional[int]]:
        return [int(it) if it.isdigit() else None for it in self.words(name)]

    def array(self, name: str) -> bytes:
        found = re.search(rf"const {name}: \[u8; (\d+)\] = \[(.*?)\];", self.text, re.S)
        assert found, name
        made = bytes(number(it) for it in re.findall(NUMBER, found[2]))
        assert len(made) == int(found[1]), name
        return made

    def body(self, name: str) -> str:
        """A function, or a table that is a constant or a static."""
        found = re.search(rf"fn {name}\(.*?\n}}\n|(?:const|static) {name}: .*?\n\];\n", self.text, re.S)
        assert found, name
        return found[0]

    def rows(self, function: str, form: str) -> List[Tuple[str, ...]]:
        """The rows of a table, or of a function with one, of this form: N is a number, X a text of bytes, W a word."""
        pattern = form.replace("(", r"\(").replace(")", r"\)").replace("N", f"({NUMBER}|SOUND)")
        pattern = pattern.replace("X", '"([^"]*)"').replace("W", "([A-Z][a-z]+)").replace(" ", r"\s*")
        found = [it.groups() for it in re.finditer(pattern, self.body(function))]
        assert found, function
        return found


def number(word: str) -> int:
    return ord(word[2]) if word.startswith("b'") else int(word, 0)


def told(word: str) -> Optional[int]:
    return None if word == "SOUND" else number(word)


def put(data: bytes, at: int, new: bytes) -> bytes:
    return data[:at] + new + data[at + len(new) :]


def flipped(data: bytes, at: int, bit: int) -> bytes:
    return put(data, at, bytes([data[at] ^ bit]))


def breaks_at(call: Callable[[], object]) -> Optional[int]:
    try:
        call()
    except Malformed as fault:
        return fault.at
    return None


def stripe(data: bytes, form: int) -> Optional[int]:
    return breaks_at(lambda: block_format.StripeReader(data, form == 2).read())


class Stripes(unittest.TestCase):
    SOURCE = Source("blocks_tests", "src", "stripes.rt")
    OTHER = Source("blocks_tests", "src", "malformed.rt")

    def test_one_bit(self) -> None:
        tables = (("STRIPE", "LOWEST", 2, 1), ("STRIPE", "HIGHEST", 2, 128), ("PLAIN", "PLAIN_LOWEST", 1, 1))
        for name, table, form, bit in tables:
            data, wanted = self.SOURCE.page(name), self.SOURCE.offsets(table)
            self.assertEqual([stripe(flipped(data, at, bit), form) for at in range(len(wanted))], wanted)

    def test_the_other_form(self) -> None:
        self.assertEqual((stripe(self.SOURCE.page("STRIPE"), 1), stripe(self.SOURCE.page("PLAIN"), 2)), (29, 164))

    def test_malformed(self) -> None:
        data = self.SOURCE.page("STRIPE")
        for at, new, offset in self.OTHER.rows("ONE", "(N, X, N)"):
            self.assertEqual(stripe(put(data, number(at), bytes.fromhex(new)), 2), number(offset), at)
        for at, new, other, also, offset in self.OTHER.rows("TWO", "(N, X, N, X, N)"):
            twice = put(put(data, number(at), bytes.fromhex(new)), number(other), bytes.fromhex(also))
            self.assertEqual(stripe(twice, 2), number(offset), (at, other))


class Blocks(unittest.TestCase):
    HEADERS = Source("blocks_tests", "src", "headers.rt")
    WHOLE = Source("blocks_tests", "src", "whole.rt")

    def block(self) -> bytes:
        filters = bytearray(PAGE)
        indexed = Source("blocks_tests", "src", "indexed.rt").text
        for at, value in re.findall(r"\((\d+), (0x[0-9a-f]+)\)", re.search(r"static BLOOM.*?;\n", indexed)[0]):
            filters[int(at)] = int(value, 16)
        return self.HEADERS.page("ONE") + self.WHOLE.page("ROW") + self.WHOLE.page("INDEX") + bytes(filters)

    def check(self, data: bytes, rows: int = 1) -> Optional[int]:
        return breaks_at(lambda: block_format.check_block(data, rows))

    def test_headers(self) -> None:
        for at, new, offset in self.HEADERS.rows("CHANGES", "(N, X, N)"):
            data = put(self.HEADERS.page("ONE"), number(at), bytes.fromhex(new))
            self.assertEqual(breaks_at(lambda: block_format.read_header(data)), told(offset), at)
        three = block_format.read_header(self.HEADERS.page("THREE"))
        stripes = [(it.page, it.pages, it.rows) for it in three.stripes]
        self.assertEqual(stripes, [(1, 5, 256), (6, 258, 256), (264, 1, 1)])

    def test_each_byte(self) -> None:
        data = self.block()
        self.assertEqual((len(data), self.check(data)), (4 * PAGE, None))
        wanted: Dict[int, Optional[int]] = {at: at for at in range(0, 4 * PAGE, 29)}
        wanted.update(enumerate(self.WHOLE.offsets("HEADER_CHANGES")))
        wanted.update((PAGE + at, offset) for at, offset in enumerate(self.WHOLE.offsets("ROW_CHANGES")))
        for at, offset in wanted.items():
            self.assertEqual(self.check(put(data, at, bytes([(data[at] + 1) % 256]))), offset, at)

    def test_two_places(self) -> None:
        data = self.block()
        for at, new, other, also, offset in self.WHOLE.rows("TWO", "( (N, X) , (N, X) , N )"):
            twice = put(put(data, number(at), bytes.fromhex(new)), number(other), bytes.fromhex(also))
            self.assertEqual(self.check(twice), number(offset), (at, other))
        for at, new, offset in self.WHOLE.rows("CUT", "(N, X, N)"):
            self.assertEqual(self.check(put(data, number(at), bytes.fromhex(new))[:4100]), number(offset), at)
        for rows, length, offset in self.WHOLE.rows("SIZES", "(N, N, N)"):
            self.assertEqual(self.check(data.ljust(16385, b"\0")[: number(length)], number(rows)), told(offset))


class Lists(unittest.TestCase):
    SOURCE = Source("disk_tests", "src", "list.rt")

    def test_each_rule(self) -> None:
        second = self.SOURCE.array("SECOND")
        self.assertEqual(store_format.read_slot(0, self.SOURCE.array("NEW_STORE")).next_file, 3)
        self.assertEqual(store_format.read_slot(1, second, 0).next_file, 6)
        for at, new, offset in self.SOURCE.rows("RULES", "(N, N, N)"):
            data = put(second, number(at), bytes([number(new)]))
            self.assertEqual(breaks_at(lambda: store_format.read_slot(1, data, 0)), number(offset), (at, new))


class Logs(unittest.TestCase):
    SOURCE = Source("disk_tests", "src", "log.rt")
    BODIES = Source("disk_tests", "src", "batches.rt")

    def scan(self, data: bytes) -> Tuple[str, int]:
        facts = SegmentFacts(7)
        at = breaks_at(lambda: store_format.read_segment(data, facts))
        return ("Ok", facts.records) if at is None else ("Err", at)

    def segment(self, body: bytes) -> bytes:
        return bytes([1, 1, len(body), 0, 0, 0, 0, 0, 0, 0]) + body + b"\0"

    def test_one_place(self) -> None:
        for name in ("TWO_RESOURCES", "EXTENDED"):
            data = self.segment(self.BODIES.array(name))
            for at, count, byte, way, offset in self.SOURCE.rows(f"{name}_CHANGES", "(N, N, N, W(N))"):
                new = put(data, number(at), bytes([number(byte)]) * number(count))
                self.assertEqual(self.scan(new), (way, number(offset)), (name, at))

    def cases(self, function: str) -> Iterator[Tuple[int, Tuple[str, int]]]:
        """The places of a match's arms, with what is said of each."""
        for places, way, offset in re.findall(r"([\d|.= ]+) => (Ok|Err)\((\d+)\)", self.SOURCE.body(function)):
            for place in places.split("|"):
                first, _, last = place.strip().partition("..=")
                for at in range(int(first), int(last or first) + 1):
                    yield at, (way, int(offset))

    def test_two_records(self) -> None:
        data = bytes([1, 1, 129, 0, 0, 0, 0, 0, 0, 0]) + self.BODIES.array("TWO_SPANS")
        data += bytes([1, 9, 0, 0, 0, 0, 0, 0, 0, 8, 0, 0, 0, 0, 0, 0, 0, 0, 0])
        wanted = dict(self.cases("other_bit_of_spans"))
        wanted.update(self.cases("other_bit"))
        for at in range(158):
            self.assertEqual(self.scan(data[:at]), ("Err", at))
            self.assertEqual(self.scan(flipped(data, at, 1)), wanted.get(at, ("Ok", 2)), at)
        self.assertEqual(self.scan(data), ("Ok", 2))


if __name__ == "__main__":
    unittest.main()
