"""The folder that make_store.sh makes by the program, and the same one of the independent writer.

What the session's lines leave is worked out by hand, file by file. As an encoding has one value and a value one
encoding, the program's files have to be the writer's, byte for byte.
"""
from __future__ import annotations

import json
import os
import sys
import tempfile
import unittest
from typing import Any, Dict, List, Tuple

HERE = os.path.dirname(os.path.abspath(__file__))
TOP = os.path.dirname(os.path.dirname(HERE))
sys.dont_write_bytecode = True
sys.path[:0] = [os.path.join(TOP, "tools"), HERE]

import store_report
import store_writer as writer

BY_THE_PROGRAM = os.path.join(HERE, "data", "store")


# ---- the spans of a push, as far as the examples need it


def attrs(items: List[Dict[str, Any]]) -> writer.Attrs:
    """Attributes but those whose value is a double or a list, which aren't kept."""
    kept = []
    for it in items:
        value = it["value"]
        if "stringValue" in value:
            kept.append((it["key"], value["stringValue"]))
        elif "intValue" in value:
            kept.append((it["key"], int(value["intValue"])))
        elif "boolValue" in value:
            kept.append((it["key"], value["boolValue"]))
    return kept


def event(it: Dict[str, Any]) -> Tuple[int, str, writer.Attrs]:
    return int(it["timeUnixNano"]), it.get("name", ""), attrs(it.get("attributes", []))


def link(it: Dict[str, Any]) -> Tuple[bytes, bytes, writer.Attrs]:
    return bytes.fromhex(it["traceId"]), bytes.fromhex(it["spanId"]), attrs(it.get("attributes", []))


def span(it: Dict[str, Any], resource: writer.Attrs, scope: Dict[str, Any]) -> writer.Made:
    status = it.get("status", {})
    return {
        "trace": bytes.fromhex(it["traceId"]),
        "id": bytes.fromhex(it["spanId"]),
        "parent": bytes.fromhex(it.get("parentSpanId", "")) or None,
        "name": it.get("name", ""),
        "kind": it.get("kind", 0),
        "start": int(it["startTimeUnixNano"]),
        "end": int(it["endTimeUnixNano"]),
        "status": status.get("code", 0),
        "message": status.get("message", ""),
        "attrs": attrs(it.get("attributes", [])),
        "resource": resource,
        "scope": (scope.get("name", ""), scope.get("version", ""), attrs(scope.get("attributes", []))),
        "events": [event(of) for of in it.get("events", [])],
        "links": [link(of) for of in it.get("links", [])],
    }


def spans_of(line: str) -> List[writer.Made]:
    made = []
    for of_resource in json.loads(line)["resourceSpans"]:
        resource = attrs(of_resource.get("resource", {}).get("attributes", []))
        for of_scope in of_resource["scopeSpans"]:
            made += [span(it, resource, of_scope.get("scope", {})) for it in of_scope["spans"]]
    return made


def pushes() -> List[List[writer.Made]]:
    """The seven pushes of make_store.sh."""
    with open(os.path.join(TOP, "examples", "collector.jsonl"), encoding="utf-8") as opened:
        lines = opened.read().splitlines()[:3]
    with open(os.path.join(TOP, "examples", "first.txt"), encoding="utf-8") as opened:
        lines += [it[len("push ") :] for it in opened.read().splitlines()[:4]]
    return [spans_of(it) for it in lines]


# ---- what the session leaves


def stored() -> Dict[int, bytes]:
    """The files after the session: the numbers of files, the floor and the generations are worked out by hand."""
    sent = pushes()
    rows = [[(number, at, it) for at, it in enumerate(spans)] for number, spans in enumerate(sent)]
    return {
        0: writer.slot(4, 10, 3, [(6, 2), (9, 4)], [(7, 1, 5), (8, 0, 3)], [2, 4, 3, 5]),
        1: writer.slot(3, 8, 2, [(6, 2)], [(7, 1, 5)], [2, 4, 3, 5]),
        2: writer.segment(0, sent[:1]),
        3: writer.block(rows[0]),
        4: writer.segment(1, sent[1:2]),
        5: writer.block(rows[1]),
        6: writer.segment(2, sent[2:4]),
        7: writer.block(rows[0] + rows[1]),
        8: writer.block(rows[2]),
        9: writer.segment(4, sent[4:]),
    }


class StoredFolder(unittest.TestCase):
    def numbers(self, folder: str) -> None:
        found = store_report.survey(folder, True)
        self.assertEqual((found.malformed, found.refused, found.others, found.unnamed), ([], None, [], []))
        self.assertEqual([(it.state, it.generation, it.bytes, it.counts) for it in found.slots],
                         [("open", 4, 88, True), ("open", 3, 67, False)])
        self.assertEqual((found.next_file, found.floor, found.pushes), (10, 3, 7))
        segments = [(it.file, it.first, it.records, it.spans) for it in found.segments]
        self.assertEqual(segments, [(6, 2, 2, 4), (9, 4, 3, 6)])
        self.assertTrue(all((it.commit_byte, it.bytes_after) == (0, 0) for it in found.segments))
        self.assertEqual([(it.file, it.level, it.rows, it.traces, it.stripes, it.form) for it in found.blocks],
                         [(7, 1, 5, 2, 1, 2), (8, 0, 3, 1, 1, 2)])
        self.assertEqual([(it.earliest, it.latest) for it in found.blocks],
                         [(1753000000000000000, 1753000001001000000), (1753000002000000000, 1753000002020000000)])
        self.assertTrue(all(it.bytes == 4096 * it.pages for it in found.blocks))
        self.assertEqual([it.file for it in found.loose], [2, 4, 3, 5])
        self.assertEqual(len(found.cleaning), 4)

    def test_of_the_writer(self) -> None:
        with tempfile.TemporaryDirectory() as folder:
            writer.write(folder, stored())
            self.numbers(folder)

    @unittest.skipUnless(os.path.isdir(BY_THE_PROGRAM), "data/store is missing: make_store.sh PROGRAM makes it")
    def test_of_the_program(self) -> None:
        self.numbers(BY_THE_PROGRAM)
        for number, wanted in stored().items():
            with open(os.path.join(BY_THE_PROGRAM, f"{number}.dat"), "rb") as opened:
                self.assertEqual(opened.read().hex(), wanted.hex(), f"{number}.dat")


if __name__ == "__main__":
    unittest.main()
