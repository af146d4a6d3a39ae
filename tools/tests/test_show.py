"""Tests of tools/show: `python3 -m unittest discover -s tools/tests` in the top folder."""
from __future__ import annotations

import base64
import hashlib
import io
import json
import os
import pty
import re
import resource
import shutil
import subprocess
import sys
import tempfile
import unittest
import xml.etree.ElementTree as ElementTree
from fractions import Fraction
from pathlib import Path
from urllib.parse import unquote

sys.dont_write_bytecode = True
TOOLS = Path(__file__).resolve().parents[1]
EXAMPLES = TOOLS.parent / "examples"
DATA = TOOLS / "tests" / "data"
CHROMIUM = shutil.which("chromium")
sys.path.insert(0, str(TOOLS))

import show_chart
import show_page
import show_replies as replies
import show_text

TRACE_ID = "000000000000000000000000000000a1"
START = 1_753_000_000_000_000_000


def attribute(key: str, text: str) -> dict:
    return {"key": key, "value": {"stringValue": text}}


def span(number: int, parent: int = 0, name: str = "span", start: int = 0, length: int = 1000, **more) -> dict:
    """A span as the program writes it, with more members. Times are nanoseconds after START; parent 0 is none."""
    return {
        "attributes": [], "endTimeUnixNano": str(START + start + length), "kind": 0, "name": name,
        "parentSpanId": f"{parent:016x}" if parent else "", "spanId": f"{number:016x}",
        "startTimeUnixNano": str(START + start), "status": {"code": 0, "message": ""}, "traceId": TRACE_ID, **more,
    }


def reply(*spans: dict, service: str = "shop") -> bytes:
    scope = {"scope": {"attributes": [], "name": "", "version": ""}, "spans": list(spans)}
    group = {"resource": {"attributes": [attribute("service.name", service)]}, "scopeSpans": [scope]}
    return f"ok trace as_of=1 spans={len(spans)} {json.dumps({'resourceSpans': [group]})}\n".encode()


def many_spans(number: int) -> bytes:
    """A trace with up to ten spans below each other, and attributes on each."""
    spans = []
    for at in range(1, number + 1):
        attributes = [attribute("http.route", f"/orders/{at}"), attribute("server.address", "10.0.0.7"),
                      {"key": "http.response.status_code", "value": {"intValue": "200"}}]
        parent = at - 1 if at % 10 != 1 else min(at - 1, 1)
        spans.append(span(at, parent, f"GET /orders/{at}", at * 1000, 10**7 - at * 100, attributes=attributes))
    return reply(*spans)


def metrics(*series: tuple[list, list]) -> bytes:
    """A reply of metrics. A series is its values of `by` as they are written, and its numbers; a text is a fraction."""
    told = [{"by": by, "values": [{"ratioValue" if isinstance(it, str) else "intValue": str(it)} for it in numbers]}
            for by, numbers in series]
    return f"ok metrics as_of=2 series={len(series)} {json.dumps({'series': told})}\n".encode()


def text_value(text: str) -> dict:
    return {"stringValue": text}


def run(*words: str, given: bytes = b"", **environment: str) -> subprocess.CompletedProcess:
    clean = {name: it for name, it in os.environ.items() if name not in ("COLUMNS", "NO_COLOR")}
    return subprocess.run([sys.executable, str(TOOLS / "show"), *words], input=given, capture_output=True,
                          env={**clean, **environment}, timeout=60)


def parts_of(given: bytes) -> list[replies.Part]:
    return list(replies.Reader().parts(given.splitlines(True)))


def drawn(given: bytes, width: int = 80, full: bool = False) -> str:
    out = io.BytesIO()
    show_text.draw_text(parts_of(given), show_text.Look(width, full=full), out, on_terminal=False)
    return out.getvalue().decode(errors="replace")


def processor_time() -> float:
    """How many seconds the processes that ended took: of this time other work on the machine takes nothing."""
    used = resource.getrusage(resource.RUSAGE_CHILDREN)
    return used.ru_utime + used.ru_stime


def page_of(given: bytes) -> str:
    return show_page.page(parts_of(given))


def example(name: str) -> bytes:
    return (EXAMPLES / f"{name}.replies").read_bytes()


def rows_of(given: bytes) -> list[replies.Row]:
    (part,) = parts_of(given)
    return part.rows


class Texts(unittest.TestCase):
    def test_durations(self):
        told = {
            0: "0 ns", 999: "999 ns", 1000: "1 µs", 12_345: "12.35 µs", 999_949: "999.9 µs", 999_950: "1 ms",
            380_000_000: "380 ms", 999_950_000: "1 s", 1_234_000_000: "1.234 s", 59_994_000_000: "59.99 s",
            59_996_000_000: "1m 00s", 61_000_000_000: "1m 01s", 3_599_600_000_000: "1h 00m",
            5_400_000_000_000: "1h 30m", 90_000_000_000_000: "1d 01h", -5_000_000: "-5 ms",
        }
        self.assertEqual({nanos: replies.duration(nanos) for nanos in told}, told)

    def test_moments(self):
        self.assertEqual(replies.moment(0), "1970-01-01 00:00:00 UTC")
        self.assertEqual(replies.moment(START + 500_000_000), "2025-07-20 08:26:40.500 UTC")
        self.assertEqual(replies.moment(2**64 - 1), "2554-07-21 23:34:33.709551615 UTC")
        self.assertEqual(replies.moment(10**30), f"{10**30} ns")

    def test_widths(self):
        for text, columns in (("abc", 3), ("東京", 4), ("e\u0301", 1), ("🛒", 2), ("שלום", 4), ("", 0)):
            self.assertEqual(replies.width_of(text), columns, text)
            for room in range(8):
                self.assertLessEqual(replies.width_of(replies.fit(text, room)), room)
                self.assertEqual(replies.width_of(replies.pad(text, room)), room)
        self.assertEqual(replies.fit("東京都", 5), "東京…")
        self.assertEqual(len(replies.fit("z" + "\u0301" * 1000, 5)), 1 + replies.MARKS_SHOWN)

    def test_what_controls_is_escaped(self):
        self.assertEqual(replies.word("a\x1b[31m\x00\x7f\x9b\u202e\ufeff\ud800\r\n\tz"),
                         r"a\x1b[31m\x00\x7f\x9b\u202e\ufeff\ud800\n\tz")
        self.assertEqual(replies.clean("two\nlines"), "two\nlines")
        for text in ("東京 שלום عربى", "👩\u200d🚀", "می\u200cخواهم", "e\u0301\xa0"):
            self.assertEqual(replies.clean(text), text)


class Trees(unittest.TestCase):
    def depths(self, *spans: dict) -> list[tuple[int, int]]:
        return [(int(row.span.span_id, 16), row.depth) for row in rows_of(reply(*spans))]

    def notes(self, *spans: dict) -> dict[int, list[str]]:
        return {int(row.span.span_id, 16): row.span.notes for row in rows_of(reply(*spans)) if row.span.notes}

    def test_children_follow_their_parents(self):
        self.assertEqual(self.depths(span(1), span(2, 1), span(3, 1), span(4, 2), span(5)),
                         [(1, 0), (2, 1), (4, 2), (3, 1), (5, 0)])

    def test_orphans_are_roots(self):
        self.assertEqual(self.depths(span(1), span(2, 9), span(3, 2)), [(1, 0), (2, 0), (3, 1)])
        self.assertEqual(self.notes(span(1), span(2, 9)), {2: ["its parent 0000000000000009 isn't here"]})

    def test_rings_are_cut_at_their_first_span(self):
        ring = [span(1, 3), span(2, 1), span(3, 2), span(4, 2), span(5, 5), span(6)]
        self.assertEqual(self.depths(*ring), [(1, 0), (2, 1), (3, 2), (4, 2), (5, 0), (6, 0)])
        self.assertEqual(self.notes(*ring), {1: ["its parents lead back to it"], 5: ["its parents lead back to it"]})
        below_a_ring = [span(4, 3), span(3, 2), span(2, 3)]
        self.assertEqual(self.depths(*below_a_ring), [(3, 0), (4, 1), (2, 1)])

    def test_spans_that_share_an_id_are_all_drawn(self):
        self.assertEqual(self.depths(span(1), span(1), span(2, 1)), [(1, 0), (2, 1), (1, 0)])

    def test_a_span_that_ends_before_it_starts(self):
        backward = span(1, start=5_000_000, length=-2_000_000)
        self.assertEqual(self.notes(backward), {1: ["it ends 2 ms before it starts"]})
        text = drawn(reply(span(2, length=10_000_000), backward))
        self.assertRegex(text, r"-2 ms +‹")

    def test_deep_traces(self):
        text = drawn(reply(*(span(at, at - 1) for at in range(1, 5001))), width=80)
        self.assertIn("4999…", text)
        self.assertLessEqual(max(map(len, text.splitlines())), 80)


class Drawing(unittest.TestCase):
    def test_examples_are_drawn_as_stored(self):
        for name in ("collector", "first", "search", "metrics"):
            with self.subTest(name):
                text = drawn(example(name), width=100)
                self.assertEqual(text, (DATA / f"{name}.drawn").read_text(encoding="utf-8"))

    def test_all_widths_are_kept(self):
        for width in (40, 60, 80, 132, 300):
            for name in ("collector", "first", "search", "metrics"):
                drawn_alone = (b"ok trace", b"ok search", b"ok metrics")
                told = [line for line in example(name).splitlines(True) if line.startswith(drawn_alone)]
                lines = drawn(b"".join(told), width).splitlines()
                self.assertLessEqual(max(map(replies.width_of, lines)), width)

    def test_no_escape_reaches_the_output(self):
        text = drawn((DATA / "hostile.replies").read_bytes())
        unsafe = [char for char in text if not replies.is_safe(char)]
        self.assertEqual(unsafe, [])
        names = (r"\x1b]0;owned\x07", "<script>alert(1)</script>", "東京", "שלום", "👩\u200d🚀")
        for told in (*names, r"\u202e", r"\ud800"):
            self.assertIn(told, text)

    def test_events_and_links(self):
        events = [{"attributes": [], "name": f"event {at}", "timeUnixNano": str(START + at)} for at in range(8)]
        events[0]["timeUnixNano"] = "0"
        links = [{"attributes": [attribute("why", "again")], "spanId": f"{7:016x}", "traceId": f"{8:032x}"}]
        given = reply(span(1, events=events, links=links))
        text = drawn(given, width=120)
        self.assertIn("• event 0 (at no time)", text)
        self.assertIn("• event 4 (at 4 ns)", text)
        self.assertNotIn("event 5", text)
        self.assertIn("and 3 more events", text)
        self.assertIn(f'→ links to span {7:016x} of trace {8:032x} why="again"', text)
        self.assertIn("• event 7 (at 7 ns)", drawn(given, full=True))

    def test_spansets(self):
        hit = {"attributes": [{"key": ".a", "value": None}, {"key": ".b", "value": {"ratioValue": "-1/2"}}],
               "durationNanos": "5", "name": "x", "spanId": f"{1:016x}", "startTimeUnixNano": str(START)}
        by = [None, {"boolValue": True}, {"kindValue": "server"}, {"stringValue": "5"}]
        group = {"by": by, "matched": 17, "spans": [hit]}
        found = {"durationNanos": "5", "rootName": None, "rootService": None, "spanSets": [group],
                 "startTimeUnixNano": str(START), "traceId": TRACE_ID}
        text = drawn(f"ok search as_of=1 traces=1 {json.dumps({'traces': [found]})}\n".encode())
        self.assertIn('by nil, true, server, "5": 17 spans, 1 shown', text)
        self.assertIn(".a=nil  .b=-1/2", text)
        self.assertIn("no root", text)

    def test_ten_thousand_spans_are_quick(self):
        given = many_spans(10_000)
        before = processor_time()
        text = run(given=given).stdout.decode()
        self.assertLess(processor_time() - before, 3)
        self.assertEqual(len(text.splitlines()), 10_003)


class Metrics(unittest.TestCase):
    def test_numbers(self):
        told = {
            "0": "0", "7": "7", "1234567": "1,234,567", "1/2": "0.5", "1/3": "0.3333", "20/3": "6.667",
            "3999/4": "999.8", "1999999/2000": "1,000", "12345/2": "6,172", "12347/2": "6,174", "1/86400": "1.157e-05",
            "999999999999": "999,999,999,999", "1000000000000": "1e+12", "123456000000000000000": "1.235e+20",
        }
        self.assertEqual({value: replies.number(Fraction(value)) for value in told}, told)

    def test_bars(self):
        """In eight columns one column is an eighth of the whole, and the parts of columns are eighths of it."""
        told = {"0": "", "8": "█" * 8, "4": "████", "1": "█", "1/8": "▏", "1/100": "▏", "9/8": "█▏",
                "63/8": "█" * 7 + "▉", "3/2": "█▌", "5/3": "█▋"}
        self.assertEqual({value: show_text.share_bar(Fraction(value), Fraction(8), 8) for value in told}, told)

    def test_counts(self):
        given = metrics(([text_value("x")], [1, 0, 4]), ([None], [2, 0, 0]))
        self.assertEqual(drawn(given, width=40).splitlines(), [
            "metrics: 2 series of 3 buckets, as of 2…", "",
            'by "x"', "  1  1  ████████", "  2  0", "  3  4  " + "█" * 32, "",
            "by nil", "  1  2  " + "█" * 16, "  2  0", "  3  0",
        ])
        self.assertIn("2 series of 3 buckets, as of 2 pushes, in spans or spans a second", drawn(given))

    def test_rates(self):
        self.assertEqual(drawn(metrics(([], ["1/4", 0, "1/2"]))).splitlines(), [
            "metrics: 1 series of 3 buckets, as of 2 pushes, in spans a second", "",
            "all spans", "  1  0.25  " + "█" * 34 + "▌", "  2     0", "  3   0.5  " + "█" * 69,
        ])

    def test_no_series(self):
        self.assertEqual(drawn(metrics()), "metrics: 0 series, as of 2 pushes\n")

    def test_ten_buckets_of_nothing_are_one_line(self):
        rows = [*([0] * 9), 1, *([0] * 10), 1, *([0] * 79)]
        told = drawn(metrics(([], rows))).splitlines()[3:]
        self.assertEqual([line.split()[0] for line in told], [*map(str, range(1, 11)), "11-20", "21", "22-100"])
        self.assertEqual(told[-1], "  22-100  0")
        self.assertEqual(len(drawn(metrics(([], rows)), full=True).splitlines()), 103)

    def test_the_ten_greatest_sums_are_drawn_in_order(self):
        """Series 5 has the sum 1 and series 8 the sum 2, all others 3."""
        numbers = {5: [1, 0], 8: [0, 2]}
        given = metrics(*(([text_value(f"s{at}")], numbers.get(at, [3, 0])) for at in range(1, 13)))
        heads = [line for line in drawn(given).splitlines() if line.startswith("by")]
        self.assertEqual(heads, [f'by "s{at}"' for at in range(1, 13) if at not in numbers])
        self.assertEqual(drawn(given).splitlines()[-1], "and 2 more series, none with a greater sum")
        self.assertEqual(sum(line.startswith("by") for line in drawn(given, full=True).splitlines()), 12)
        page = page_of(given)
        self.assertEqual((page.count("<svg"), page.count("and 2 more series, none with a greater sum")), (10, 1))

    def test_of_equal_sums_the_first_are_drawn(self):
        given = metrics(*(([text_value(f"s{at}")], [1]) for at in range(1, 12)))
        heads = [line for line in drawn(given).splitlines() if line.startswith("by")]
        self.assertEqual(heads, [f'by "s{at}"' for at in range(1, 11)])
        self.assertEqual(drawn(given).splitlines()[-1], "and 1 more series, none with a greater sum")

    def test_broken_metrics_pass_with_a_note(self):
        series = ('{"by":[]}', '{"by":7,"values":[]}', '{"by":[],"values":[]}', '{"by":[],"values":[7]}',
                  '{"by":[],"values":[{"intValue":1}]}', '{"by":[],"values":[{"intValue":"-1"}]}',
                  '{"by":[],"values":[{"ratioValue":"1/0"}]}', '{"by":[],"values":[{"boolValue":"1"}]}',
                  '{"by":[],"values":[{"intValue":"' + "9" * 400 + '"}]}', '{"by":[],"values":[{"intValue":"１"}]}',
                  '{"by":[],"values":[{"intValue":"1"}]},{"by":[null],"values":[{"intValue":"1"},{"intValue":"1"}]}')
        shapes = ("{}", '{"series":7}', *(f'{{"series":[{it}]}}' for it in series))
        given = b"".join(f"ok metrics as_of=1 series=1 {shape}\n".encode() for shape in shapes)
        done = run(given=given)
        self.assertEqual((done.stdout, done.returncode), (given, 1))
        self.assertEqual(len(done.stderr.splitlines()), len(shapes))

    def test_a_chart(self):
        """Two buckets, the whole 2: the axes are 636 by 110, so a bucket is 318 wide and its bar 254.4."""
        (svg,) = [ElementTree.fromstring("".join(show_chart.chart([Fraction(1), Fraction(2)], Fraction(2))))]
        bars = [{**bar.attrib, "title": bar[0].text} for bar in svg.iter("rect")]
        self.assertEqual(bars, [
            {"x": "107.8", "y": "67", "width": "254.4", "height": "55", "title": "bucket 1: 1"},
            {"x": "425.8", "y": "12", "width": "254.4", "height": "110", "title": "bucket 2: 2"},
        ])
        self.assertEqual([text.text for text in svg.iter("text")], ["0", "1", "2", "1", "2", "bucket"])
        self.assertEqual(svg.get("aria-label"), "2 buckets, the most 2 in bucket 2")

    def test_labels_of_buckets(self):
        self.assertEqual(show_chart.labelled(1), [1])
        self.assertEqual(show_chart.labelled(12), list(range(1, 13)))
        self.assertEqual(show_chart.labelled(13), [1, 2, 4, 6, 8, 10, 12])
        self.assertEqual(show_chart.labelled(1000), [1, *range(100, 1001, 100)])

    def test_levels(self):
        told = {"1": ["0", "1"], "2": ["0", "1", "2"], "7": ["0", "7"], "1/2": ["0", "1/4", "1/2"]}
        self.assertEqual({whole: [str(level) for level in show_chart.levels(Fraction(whole))] for whole in told}, told)

    def test_its_page_has_a_chart_for_each_series(self):
        page = page_of(example("metrics")).partition("<main>")[2].partition("</main>")[0]
        charts = re.findall(r"<svg.*?</svg>", page, re.DOTALL)
        self.assertEqual(len(charts), 3 + 1 + 2 + 1)
        for one in charts:
            ElementTree.fromstring(one)
        self.assertIn("<h3>by <bdi>&quot;payments&quot;</bdi>, <bdi>error</bdi></h3>", page)
        self.assertIn("<title>bucket 4: 0.3</title>", page)

    def test_many_series_are_quick(self):
        given = metrics(*(([text_value(f"s{at}")], [at % 7, "1/3"] * 500) for at in range(300)))
        before = processor_time()
        self.assertEqual(len(run(given=given).stdout.splitlines()), 3 + 10 * 1002)
        self.assertLess(processor_time() - before, 5)


class Other(unittest.TestCase):
    def test_summary(self):
        lines = [f"ok push {at} accepted=500 rejected={at % 2} skipped=3\n" for at in range(2000)]
        lines.insert(7, "refused bad-json\n")
        lines.insert(9, "refused bad-json\n")
        lines.insert(11, "refused bad-otlp path=$.resourceSpans\n")
        lines += ["ok cutall moved=1000000\n", "ok flush rows=900000\n", "ok flush rows=100000\n",
                  "ok compact blocks=2 rows=999999\n", "ok compact nothing\n", "ok reclaim files=3\n"]
        self.assertEqual(drawn("".join(lines).encode()).splitlines(), [
            "2,000 pushes: 1,000,000 spans accepted, 1,000 rejected, 6,000 attributes, events or links skipped",
            "1 cut moved 1,000,000 rows", "2 flushes made 2 blocks of 1,000,000 rows",
            "1 compaction joined 2 blocks into 1 of 999,999 rows", "1 reclaim emptied 3 loose files",
            "refused bad-json  (2 times)", "refused bad-otlp path=$.resourceSpans  (1 time)",
        ])

    def test_many_texts_of_refusals(self):
        lines = [f"refused too-many spans={20_000 + at}\n" for at in range(30)]
        lines += ["ok cutall moved=0\n", "ok flush nothing\n"]
        self.assertEqual(drawn("".join(lines).encode()).splitlines()[-1], "refused in other words  (20 times)")

    def test_other_replies_pass_unchanged(self):
        for given in (b"refused bad-query unexpected at=9\n", b"refused memory\nrefused memory\nrefused bad-json\n",
                      b"refused not-store file=3 at=17\n", b"ok flush rows=8\n",
                      b"ok push 0 accepted=1 rejected=0 skipped=0\n", b"hello", b"\n\n", b"",
                      b"\xff\xfe\x1b[31m\n", b"ok cut moved=x\nok trace\r\n"):
            self.assertEqual(parts_of(given), [replies.Passed(line) for line in given.splitlines(True)])
        given = b"\xff\xfe\x1b[31m\r\nok trace\n\nhello"
        done = run(given=given)
        self.assertEqual((done.stdout, done.stderr, done.returncode), (given, b"", 0))

    def test_broken_replies_pass_with_a_note(self):
        shapes = ('{"resourceSpans":7}', "{", '{"resourceSpans":[{"scopeSpans":[{"spans":[{}]}]}]}', '{"traces":[]}',
                  '{"resourceSpans":[{"scopeSpans":[{"spans":[7]}]}]}', '{"resourceSpans":[]}x',
                  '{"resourceSpans":"\xff"}', '{"a":' * 9999,
                  '{"resourceSpans":[{"scopeSpans":[{"spans":[{"kind":1e999,"name":""}]}]}]}')
        given = b"".join(f"ok trace as_of=1 spans=1 {shape}\n".encode("latin-1") for shape in shapes)
        done = run(given=given)
        self.assertEqual((done.stdout, done.returncode), (given, 1))
        notes = done.stderr.decode().splitlines()
        self.assertEqual(len(notes), len(shapes))
        for note in notes:
            self.assertRegex(note, "^show: a reply can't be read and passes unchanged: ")

    def test_a_file_that_is_not_there(self):
        done = run("/nowhere/at/all")
        self.assertEqual(done.returncode, 2)
        self.assertIn(b"/nowhere/at/all", done.stderr)

    def test_the_first_lines_say_what_it_is(self):
        told = run("--help").stdout.decode()
        self.assertIn("Nothing of it is proved, and it only reads.", "\n".join(told.splitlines()[:5]))

    def test_colour_needs_a_terminal(self):
        self.assertNotIn(b"\x1b", run(str(EXAMPLES / "collector.replies")).stdout)
        with_colour = on_terminal(str(EXAMPLES / "collector.replies"))
        self.assertIn(b"\x1b[31m", with_colour)
        self.assertNotIn(b"\x1b", on_terminal(str(EXAMPLES / "collector.replies"), NO_COLOR="1"))
        self.assertNotIn(b"\x1b]", on_terminal(str(DATA / "hostile.replies")))


def on_terminal(*words: str, **environment: str) -> bytes:
    """What the command writes to a terminal."""
    ours, theirs = pty.openpty()
    command = subprocess.Popen([sys.executable, str(TOOLS / "show"), *words], stdin=subprocess.DEVNULL, stdout=theirs,
                               env={**os.environ, **environment})
    os.close(theirs)
    written = b""
    try:
        while more := os.read(ours, 65536):
            written += more
    except OSError:  # the other end is closed
        pass
    os.close(ours)
    command.wait(timeout=30)
    return written


# Runs in the page after its own script, and leaves what it saw in an attribute of the document.
DRIVER = """
{
const told = {};
const trees = [...document.querySelectorAll(".rows")];
let tree = trees[0];
const press = key => tree.dispatchEvent(new KeyboardEvent("keydown", {key, bubbles: true, cancelable: true}));
const rows = () => [...tree.querySelectorAll(".row")].map(row => row.querySelector(".title").textContent);
const current = () => tree.querySelector(".row.current .title").textContent;
const panelText = () => document.getElementById("panel").hidden ? null : document.getElementById("panel").textContent;

told.drawn = document.querySelectorAll(".row").length;
told.scripts = document.querySelectorAll("script").length;
told.markup = document.querySelectorAll("img, b.owned").length;
told.all = rows();
press("ArrowDown"); told.down = current();
press("ArrowLeft"); told.folded = rows();
press("ArrowRight"); told.unfolded = rows();
press("ArrowRight"); told.child = current();
press("ArrowLeft"); told.parent = current();
told.closed = panelText();
press("End"); press("Enter"); told.panel = panelText();
press("ArrowUp"); told.follows = panelText();
press("Escape"); told.escaped = panelText();
tree.querySelector(".row .fold").click(); told.clickedFold = rows();
const find = document.getElementById("find");
find.value = "BANK.example";
find.dispatchEvent(new KeyboardEvent("keydown", {key: "Enter"}));
told.found = current();
tree.querySelector(".row .lane").click(); told.clicked = panelText();
const theme = document.documentElement.dataset.theme;
document.getElementById("theme").click();
told.themes = [theme, document.documentElement.dataset.theme].sort();

tree = trees[1];
told.names = [];
told.panels = [];
for (let at = 0; at < 21; at++) {
    press("Enter");
    told.names.push(current());
    told.panels.push(panelText());
    press("ArrowDown");
}

tree = trees[2];
press("End"); told.last = current();
document.documentElement.dataset.told = encodeURIComponent(JSON.stringify(told));
}
"""


@unittest.skipUnless(CHROMIUM, "chromium isn't installed")
class Browser(unittest.TestCase):
    """One page in a browser: a trace, one with hostile names and a search, and a trace of 10,000 spans."""

    @classmethod
    def setUpClass(cls):
        given = example("collector").splitlines(True)[-1] + (DATA / "hostile.replies").read_bytes() + many_spans(10_000)
        page = page_of(given).replace("</body>", f"<script>{DRIVER}</script></body>")
        allowed = base64.b64encode(hashlib.sha256(DRIVER.encode()).digest()).decode()  # else its own script alone runs
        page = page.replace("script-src ", f"script-src 'sha256-{allowed}' ")
        with tempfile.TemporaryDirectory() as room:
            (Path(room) / "page.html").write_text(page, "utf-8")
            done = subprocess.run(
                [CHROMIUM, "--headless=new", "--no-sandbox", "--disable-gpu", "--disable-extensions", "--no-first-run",
                 "--disable-background-networking", f"--user-data-dir={room}/profile", "--window-size=1200,800",
                 "--enable-logging=stderr", "--v=0", "--dump-dom", f"file://{room}/page.html"],
                capture_output=True, timeout=120)
        root = done.stdout.decode(errors="replace").partition("<head>")[0]
        cls.console = [line for line in done.stderr.decode(errors="replace").splitlines() if "CONSOLE" in line]
        cls.seen = {name: unquote(text) for name, text in re.findall('data-([a-z]+)="([^"]*)"', root)}
        cls.told = json.loads(cls.seen.get("told", "{}"))

    def test_no_script_fails(self):
        self.assertEqual(self.console, [])
        self.assertNotIn("failed", self.seen)
        self.assertIn("ready", self.seen)
        self.assertIn("told", self.seen)

    def test_it_is_ready_within_two_seconds(self):
        share = max(os.getloadavg()[0] / (os.cpu_count() or 1), 1)  # how many want each processor
        self.assertLess(int(self.seen["ready"]), 2000 * share)
        self.assertLess(self.told["drawn"], 200)
        self.assertEqual(self.told["last"], "GET /orders/10000")

    def test_keys_and_clicks(self):
        told, everything = self.told, ["GET /checkout", "POST /charge", "bank"]
        self.assertEqual(told["all"], everything)
        self.assertEqual((told["down"], told["child"], told["parent"]), ("POST /charge", "bank", "POST /charge"))
        self.assertEqual((told["folded"], told["unfolded"]), (everything[:2], everything))
        self.assertIsNone(told["closed"])
        for part in ("timed out", "bank.example", "exception.stacktrace", "node-7", "payments.bank", "at 440 ms"):
            self.assertIn(part, told["panel"])
        self.assertIn("/charge", told["follows"])
        self.assertIsNone(told["escaped"])
        self.assertEqual(told["clickedFold"], everything[:1])
        self.assertEqual(told["found"], "bank")
        self.assertIn("payment failed", told["clicked"])
        self.assertEqual(told["themes"], ["dark", "light"])

    def test_hostile_names_stay_texts(self):
        self.assertEqual((self.told["scripts"], self.told["markup"]), (3, 0))
        names = ("<script>alert(1)</script>", "東京の注文", "שלום עולם", r"\u202egnp.exe\u2069")
        self.assertLessEqual({*names, "ring b", "orphan"}, set(self.told["names"]))
        self.assertIn("<img src=x onerror=alert(1)>", "".join(self.told["panels"]))
        self.assertIn("its parents lead back to it", "".join(self.told["panels"]))


class Pages(unittest.TestCase):
    def test_an_empty_page(self):
        self.assertIn("There was no reply.", run("--html").stdout.decode())

    def test_nothing_breaks_out_of_the_page(self):
        page = page_of((DATA / "hostile.replies").read_bytes())
        self.assertEqual(page.count("<script"), 2)
        self.assertEqual(page.count("</script>"), 2)
        self.assertNotIn("<img", page)
        self.assertEqual([char for char in page if not replies.is_safe(char)], [])
        for word in ("http://", "https://", " src="):
            self.assertNotIn(word, page.partition("<main>")[0] + page.partition("<script>")[2])

    def test_placeholders_in_names_stay(self):
        page = page_of(reply(span(1, name="@@DATA@@ @@TITLE@@")))
        self.assertIn('"name":"@@DATA@@ @@TITLE@@"', page)

    def test_its_title(self):
        self.assertIn("<title>shop: a &amp; b</title>", page_of(reply(span(1, name="a & b"))))
        self.assertIn("<title>a</title>", page_of(reply(span(1, name="a"), service="")))
        self.assertIn("<title>Replies</title>", page_of(reply(span(1, name=""), service="")))
        self.assertIn("<title>Replies</title>", page_of(example("first")))

    def test_all_replies_stand_on_it_in_order(self):
        page = page_of(b"hello\n" + example("search") + reply(span(1)))
        told = ["hello", "3 pushes", "search: 2 traces", "refused bad-query unexpected at=9", 'data-trace="0"']
        places = [page.index(text) for text in told]
        self.assertEqual(places, sorted(places))


if __name__ == "__main__":
    unittest.main()
