"""Tests of what tools/hostile, tools/faults, tools/growth and tools/served judge by, and of all but the third over a program that stands
in: one that is right passes, and each wrong one is found."""
from __future__ import annotations

import os
import re
import shutil
import subprocess
import sys
import tempfile
import unittest
from importlib.machinery import SourceFileLoader
from importlib.util import module_from_spec, spec_from_loader
from typing import Any, List

HERE = os.path.dirname(os.path.abspath(__file__))
TOOLS = os.path.dirname(HERE)
EXAMPLES = os.path.join(os.path.dirname(TOOLS), "examples")
STUB = os.path.join(HERE, "store_stub.py")
sys.dont_write_bytecode = True
sys.path[:0] = [TOOLS, HERE]

import store_answers
import store_writer as writer
import trials
from test_stored_folder import spans_of
from trials import Ran, why_not_documented


def script(name: str) -> Any:
    loader = SourceFileLoader(name, os.path.join(TOOLS, name))
    made = module_from_spec(spec_from_loader(name, loader))
    sys.modules[name] = made
    loader.exec_module(made)
    return made


def example(name: str) -> List[str]:
    with open(os.path.join(EXAMPLES, name), encoding="utf-8") as file:
        return file.read().splitlines()


class Answers(unittest.TestCase):
    def test_they_are_those_of_the_examples(self) -> None:
        """The look-ups of examples/first.txt, over a log that has its pushes, and over a block that has them."""
        asked, told = example("first.txt"), example("first.replies")
        pushes = [spans_of(line[len("push ") :]) for line in asked if line.startswith("push ")]
        rows = [(number, at, it) for number, spans in enumerate(pushes) for at, it in enumerate(spans)]
        firsts = {(row[2]["trace"], row[2]["id"]): row for row in reversed(rows)}.values()
        log = {0: writer.slot(0, 3, 0, [(2, 0)]), 2: writer.segment(0, pushes)}
        blocks = {0: writer.slot(0, 4, 4, [(2, 4)], [(3, 0, len(firsts))]), 2: b"\1\0", 3: writer.block(firsts)}
        for files in (log, blocks):
            with tempfile.TemporaryDirectory() as folder:
                writer.write(folder, files)
                held = store_answers.stored(folder)
                for line, reply in zip(asked, told):
                    if line.startswith("trace ") and f"as_of={len(pushes)} " in reply:
                        self.assertEqual(held.reply(line), reply)

    def test_the_first_copy_counts(self) -> None:
        spans = [[writer.span(1, name="b")], [writer.span(1, name="a"), writer.span(1, 0xB2)]]
        with tempfile.TemporaryDirectory() as folder:
            writer.write(folder, {0: writer.slot(0, 3, 0, [(2, 0)]), 2: writer.segment(0, spans)})
            reply = store_answers.stored(folder).reply(f"trace {1:032x}")
        self.assertTrue(reply.startswith("ok trace as_of=2 spans=2 "))
        self.assertEqual(re.findall('"name":"(.)"', reply), ["b"])


class Documented(unittest.TestCase):
    def test_replies(self) -> None:
        for name in sorted(os.listdir(EXAMPLES)):
            for reply in example(name) if name.endswith(".replies") else []:
                self.assertTrue(trials.REPLY.fullmatch(reply), reply[:100])
        for reply in ("", "ok", "ok push 01 accepted=1 rejected=0 skipped=0", "ok flush", "refused", "refused memory 1", "refused bad-query at=1",
                      "refused disk-fault file=1", "ok trace as_of=1 spans=-1 {}", "refused not-store file=1 at=1"):
            self.assertIsNone(trials.REPLY.fullmatch(reply), reply)

    def test_endings(self) -> None:
        fine, full, place = "ok cut moved=0", "refused store-full pushes=1", "refused not-store file=2 at=7"
        right = [(0, [fine, fine]), (7, [fine, full]), (7, ["refused memory", full]), (6, [fine, "refused memory"]), (6, []), (6, [fine]),
                 (5, [place]), (4, [])]
        for status, replies in right:
            self.assertIsNone(why_not_documented(Ran(status, replies), 2), (status, replies))
        wrong = [(None, []), (-11, []), (0, [fine]), (0, [fine, full]), (0, [fine, fine, fine]), (7, [fine, fine]), (7, [full]),
                 (7, ["refused memory", fine]), (6, [fine, full]), (6, [fine, fine]), (5, []), (5, [place, fine]), (4, [fine]), (5, ["refused not-store"]),
                 (1, []), (9, [fine, fine]), (0, [fine, "no reply"])]
        for status, replies in wrong:
            self.assertIsNotNone(why_not_documented(Ran(status, replies), 2), (status, replies))
        self.assertIsNotNone(why_not_documented(Ran(0, [fine, fine], ends_whole=False), 2))
        self.assertIsNotNone(why_not_documented(Ran(0, [fine, fine], said="a word"), 2))


class Parts(unittest.TestCase):
    def test_hostile(self) -> None:
        of = script("hostile")
        self.assertEqual(of.places(b"abc", 3), [0, 1, 2])
        block = b"TSB1" + bytes(4092) + b"\7" * 20 + bytes(4076)
        found = of.places(block, 40)
        self.assertTrue({0, 4, 4095, 4096, 4116, 8191} <= set(found), found)
        self.assertLess(len(found), 121)
        files = {"0.dat": b"\2" + bytes(40), "1.dat": b"\1" + bytes(40), "2.dat": b"\1"}
        self.assertIsNone(of.why_not_alone(files, {**files, "lock": b"", "0.dat": b"\2"}))
        self.assertIsNone(of.why_not_alone({**files, "2.dat": b""}, {"0.dat": b"\2", "1.dat": files["1.dat"]}))
        for other in ({"1.dat": b"\1"}, {"0.dat": b""}, {"2.dat": b""}, {"3.dat": b"\1"}):
            self.assertIsNotNone(of.why_not_alone(files, {**files, **other}), other)
        self.assertIsNotNone(of.why_not_alone(files, {"0.dat": files["0.dat"], "1.dat": files["1.dat"]}))
        kinds = {"as_of=2 spans=1 {}": "the same answers", "as_of=2 spans=1 {1}": "other values", "as_of=2 spans=0 {}": "fewer spans",
                 "as_of=2 spans=2 {}": "more spans", "as_of=1 spans=0 {}": "fewer pushes", "as_of=0 spans=0 {}": "a new store"}
        for reply, kind in kinds.items():
            self.assertEqual(of.kind_of(["ok trace as_of=2 spans=1 {}"], [f"ok trace {reply}"]), kind)

    def test_faults(self) -> None:
        log = ['7 openat(AT_FDCWD</>, "/lib/libc.so") = 3', '7 openat(AT_FDCWD</>, "/room/copy/2.dat", O_RDWR) = 4</room/copy/2.dat>',
               "7 pread64(3</lib/libc.so>, 4) = 4", "fsync(5</room>) = 0", "7 pread64(4</room/copy/2.dat>, 4) = 4", "7 +++ exited with 0 +++"]
        self.assertEqual(script("faults").calls_in(log, "/room"), {"openat": [2], "fsync": [1], "pread64": [2]})


class Histories(unittest.TestCase):
    def test_jobs_overlap(self) -> None:
        """A flush is busy only beside another one, and `nothing` only if nothing was cut since the last."""
        of = script("served")
        key = ("0" * 31 + "1", "0" * 15 + "1")
        pushes = of.Pushes({0: [(key, "a"), (key, "b")]})
        push = ("push {..}", "ok push 0 accepted=2 rejected=0 skipped=0")
        cut, busy, full, none = ("cutall", "ok cutall moved=2"), ("flush", "refused busy job=0"), ("flush", "ok flush rows=1"), ("flush", "ok flush nothing")
        for asked in ([[push, cut, full], [busy]], [[push, cut, full, none], [none]], [[push], [cut], [full]]):
            self.assertIsNone(of.has_history(pushes, asked), asked)
        for asked in ([[push, cut, full, busy], [none]], [[push, cut, full], [full]], [[push, cut, none]], [[cut, push]], [[push, ("flush", "ok flush rows=2")]]):
            self.assertIsNotNone(of.has_history(pushes, asked), asked)

    def test_programs(self) -> None:
        """A program that is right has a history in each run; each wrong one is found."""
        stub = os.path.join(HERE, "serve_stub.py")
        for wrong in ("", "younger", "late", "twice", "again", "early", "lost"):
            ran = subprocess.run([os.path.join(TOOLS, "served"), "--runs", "8", stub], capture_output=True, text=True, timeout=300,
                                 env={**os.environ, "SERVE_WRONG": wrong})
            last = ran.stdout.splitlines()[-1]
            self.assertEqual((ran.returncode, last == "8 passed, 0 failed"), (1 if wrong else 0, not wrong), f"{wrong}: {ran.stdout[-500:]}{ran.stderr}")


class Scripts(unittest.TestCase):
    def run_it(self, wrong: str, *words: str) -> List[str]:
        """The lines that a script prints of a program with this fault."""
        with tempfile.TemporaryDirectory() as room:
            how = {"STUB_WRONG": wrong, "TMPDIR": room}
            ran = subprocess.run([os.path.join(TOOLS, words[0]), *words[1:], STUB], capture_output=True, text=True, timeout=300, env={**os.environ, **how})
        self.assertIn(ran.returncode, (0, 1), ran.stderr)
        told = ran.stdout.splitlines()
        self.assertEqual(ran.returncode == 0, told[-1].endswith(" 0 failed"), told[-1])
        return told

    def test_hostile(self) -> None:
        words = ["hostile", "--most", "1", "--folder", "young", "--seconds", "60", "--only"]
        self.assertEqual(self.run_it("", *words, "slot 0.dat, with")[-1], "6 passed, 0 failed")
        for wrong, only, why in (("lenient", "the bytes of 2.dat", "malformed"), ("loud", "a zero more", "signal 11")):
            self.assertIn(why, "\n".join(self.run_it(wrong, *words, only)))
        words[words.index("60")] = "5"
        self.assertIn("not ended in time", "\n".join(self.run_it("deaf", *words, "a zero more")))

    @unittest.skipUnless(shutil.which("strace"), "strace isn't installed")
    def test_faults(self) -> None:
        words = ["faults", "--stride", "9", "--only", "a store, fdatasync, EIO once"]
        told = self.run_it("", *words)
        if told[0].startswith("faults: strace"):
            self.skipTest(told[0])
        self.assertRegex(told[-1], "^[1-9][0-9]* passed, 0 failed$")
        self.assertIn("FAILED a store, fdatasync", "\n".join(self.run_it("hasty", *words)))


if __name__ == "__main__":
    unittest.main()
