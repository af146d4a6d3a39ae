#!/usr/bin/env python3
"""Stands in for the program in tests of tools/hostile and tools/faults: a small session over a real folder, by the tests' writer
and by the second reading of the format pages.

STUB_WRONG says what is wrong with it: `hasty` acknowledges a push whose sync failed, `lenient` opens what is no store, `deaf` never
answers a flush, `loud` ends by a signal there.
"""
import os
import signal
import sys
import time

sys.dont_write_bytecode = True
HERE = os.path.dirname(os.path.realpath(__file__))
sys.path[:0] = [os.path.dirname(HERE), HERE]

import store_writer as writer
from store_answers import stored
from store_format import SegmentFacts, newer, read_segment, read_slot
from store_report import Folder, survey
from test_inspect import made_row
from test_stored_folder import spans_of

WRONG = os.environ.get("STUB_WRONG", "")


class Refused(Exception):
    """The session ends with this status."""


class Store:
    def __init__(self, path):
        self.path, self.faults = path, 0
        os.makedirs(path, exist_ok=True)
        has_slot = any(os.path.exists(self.file(slot)) and os.path.getsize(self.file(slot)) for slot in (0, 1))
        others = [name for name in os.listdir(path) if name.endswith(".dat")]
        if not has_slot and others and (others != ["2.dat"] or os.path.getsize(self.file(2)) > 2):
            raise Refused(4, "")
        found = survey(path, True)
        if found.refused and WRONG != "lenient":
            raise Refused(5, f"refused not-store file={found.refused.file} at={found.refused.at}")
        lists = [read_slot(slot, Folder(path).read(slot)) for slot in (0, 1)]
        if newer(*lists) is None:
            self.write(2, 0, b"\1\0")
            self.write(0, 0, writer.slot(0, 3, 0, [(2, 0)]))
            lists[0], found = read_slot(0, Folder(path).read(0)), survey(path, True)
        self.list = lists[newer(*lists)]
        self.held = stored(path)
        self.rows, self.gate = [], found.segments[-1].gate
        for it in self.list.segments:
            data, facts = Folder(path).read(it.file), SegmentFacts(it.first)
            read_segment(data, facts, lambda row: self.rows.append(made_row(row)) if row.push >= self.list.floor else None)

    def file(self, number):
        return f"{self.path}/{number}.dat"

    def write(self, number, at, data):
        opened = os.open(self.file(number), os.O_RDWR | os.O_CREAT, 0o600)
        try:
            os.pwrite(opened, data, at)
            os.fdatasync(opened)
        finally:
            os.close(opened)

    def push(self, text):
        if self.faults:
            return f"refused read-only faults={self.faults}"
        spans, number = spans_of(text), self.held.pushes
        made, at = writer.record(writer.body(number, spans)), self.gate
        file = self.list.segments[-1].file
        try:
            self.write(file, at + 1, made[1:] + b"\0")
            self.write(file, at, b"\1")
        except OSError:
            if WRONG != "hasty":
                self.faults += 1
                return "refused disk-fault"
        self.gate = at + len(made)
        self.rows += [(number, place, it) for place, it in enumerate(spans)]
        self.held = stored(self.path)
        return f"ok push {number} accepted={len(spans)} rejected=0 skipped=0"

    def flush(self):
        if WRONG == "deaf":
            time.sleep(60)
        if WRONG == "loud":
            os.kill(os.getpid(), signal.SIGSEGV)
        if not self.rows or self.faults:
            return f"refused read-only faults={self.faults}" if self.faults else "ok flush nothing"
        new, pushes, last = self.list.next_file, self.held.pushes, self.list
        try:
            self.write(new, 0, writer.block(self.rows))
            self.write(new + 1, 0, b"\1\0")
            blocks = [(it.file, it.level, it.rows) for it in last.blocks] + [(new, 0, len(self.rows))]
            loose = last.loose + [it.file for it in last.segments]
            generation = last.generation + 1
            made = writer.slot(generation, new + 2, pushes, [(new + 1, pushes)], blocks, loose)
            self.write(generation % 2, 0, b"\0")
            self.write(generation % 2, 1, made[1:])
            self.write(generation % 2, 0, b"\1")
        except OSError:
            self.faults += 1
            return "refused disk-fault"
        count, self.rows, self.gate = len(self.rows), [], 1
        self.list = read_slot(generation % 2, made)
        return f"ok flush rows={count}"

    def answer(self, line):
        word, _, rest = line.partition(" ")
        if word in ("trace", "metrics"):
            return self.held.reply(line)
        if self.faults and word in ("compact", "reclaim"):
            return f"refused read-only faults={self.faults}"
        answers = {"cutall": "ok cutall moved=0", "compact": "ok compact nothing", "reclaim": "ok reclaim files=0"}
        return self.push(rest) if word == "push" else self.flush() if word == "flush" else answers[word]


def main(path, _word):
    try:
        store = Store(path)
        for line in sys.stdin:
            print(store.answer(line.rstrip("\n")), flush=True)
    except Refused as why:
        status, reply = why.args
        print(reply, end="\n" if reply else "")
        return status
    except OSError:
        return 4
    return 7 if store.faults else 0


if __name__ == "__main__":
    sys.exit(main(*sys.argv[1:]))
