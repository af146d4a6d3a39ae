"""Runs of a built program for tools/hostile, tools/faults, tools/growth and tools/served: what they push, what docs/LINE-PROTOCOL.md
says of how a run may answer and end, and calls for memory that are refused."""
from __future__ import annotations

import json
import os
import random
import re
import resource
import shutil
import subprocess
from collections import Counter
from dataclasses import dataclass
from typing import Callable, Dict, List, Optional, Sequence

TOP = os.path.dirname(os.path.dirname(os.path.realpath(__file__)))
PROGRAM = f"{TOP}/crates/vurnda/out/vurnda"
Files = Dict[str, bytes]
FINE, OUTPUT, INPUT, FAULT, NO_STORE, NO_MEMORY, REFUSED = 0, 1, 3, 4, 5, 6, 7
MEMORY = "refused memory"
MOST_TOLD = 20
# The replies of docs/LINE-PROTOCOL.md; # stands for a number.
FORMS = """ok push # accepted=# rejected=# skipped=#|ok trace as_of=# spans=# {.*}|ok search as_of=# traces=# {.*}
ok metrics as_of=# series=# {.*}|ok (cut|cutall) moved=#|ok flush (rows=#|nothing)|ok compact (blocks=# rows=#|nothing)
ok reclaim files=#|refused too-long length=#|refused bad-request at=#|refused bad-json|refused bad-otlp path=[$].*
refused too-many spans=#|refused too-many-buckets count=#|refused bad-pattern at=#|refused pattern-too-big at=#
refused bad-query (bad-char|unexpected|unended|number-range|fraction-literal|too-deep) at=#|refused bad-query too-long length=#
refused bad-type (kind-clash|not-truth|division-in-aggregate|not-number) at=#|refused read-only faults=#|refused store-full pushes=#
refused live-full held=#|refused disk-fault|refused files-spent next=#|refused not-block file=# at=#|refused memory"""
REPLY = re.compile("|".join(FORMS.split("\n")).replace("#", "(0|[1-9][0-9]*)").replace("{", r"\{"), re.S)
NOT_STORE = re.compile(r"refused not-store file=(\d+) at=(\d+)")


@dataclass
class Ran:
    """How a run ended, and what it wrote. No status is that it had not ended in time."""

    status: Optional[int]
    replies: List[str]
    ends_whole: bool = True  # whether the last reply ends with a line feed
    said: str = ""  # on standard error


def run(words: Sequence[str], lines: Sequence[str], seconds: float, before: Callable[[], None] = lambda: None) -> Ran:
    """Runs a program over these lines. `before` is called in the new process."""

    def limited() -> None:
        resource.setrlimit(resource.RLIMIT_CORE, (0, 0))
        before()

    given = "".join(line + "\n" for line in lines).encode()
    try:
        ran = subprocess.run(words, input=given, capture_output=True, timeout=seconds, preexec_fn=limited)
        status, out, said = ran.returncode, ran.stdout, ran.stderr
    except subprocess.TimeoutExpired as late:
        status, out, said = None, late.stdout or b"", late.stderr or b""
    text = out.decode(errors="replace")
    return Ran(status, text.split("\n")[:-1] if text.endswith("\n") else text.split("\n") if text else [],
               not text or text.endswith("\n"), said.decode(errors="replace"))


def why_not_documented(ran: Ran, asked: int, streams: Sequence[int] = ()) -> Optional[str]:
    """Why a session of so many lines didn't end and answer as docs/LINE-PROTOCOL.md says; None if it did. `streams` are the statuses
    that say that a standard stream failed, if one may."""
    if ran.status is None:
        return f"it had not ended in time, after {len(ran.replies)} replies"
    if ran.status < 0:
        return f"signal {-ran.status} ended it, after {len(ran.replies)} replies: {ran.said[-300:]}"
    if ran.said or not ran.ends_whole:
        return f"it wrote on standard error, or half a reply: {ran.said[-300:]}"
    if ran.status == NO_STORE:
        is_told = len(ran.replies) == 1 and NOT_STORE.fullmatch(ran.replies[0])
        return None if is_told else f"status 5 and {ran.replies[:2]}"
    for reply in ran.replies:
        if not REPLY.fullmatch(reply):
            return f"no reply of the protocol: {reply[:200]!r}"
    refusals = [it for it in ran.replies if it.startswith("refused")]
    fits = {
        FINE: len(ran.replies) == asked and not refusals,
        REFUSED: len(ran.replies) == asked and any(it != MEMORY for it in refusals),
        NO_MEMORY: len(ran.replies) < asked or (refusals and all(it == MEMORY for it in refusals)),
        FAULT: not ran.replies,
        **{status: len(ran.replies) <= asked for status in streams},
    }
    if not fits.get(ran.status):
        return f"status {ran.status} with {len(ran.replies)} of {asked} replies, {len(refusals)} of them refusals"
    return None


# ---- less memory

# Refuses those calls for memory whose number, from 1, is from REFUSE_FROM to REFUSE_TO, and writes how many there were.
LIBRARY = r"""
#include <errno.h>
#include <stdio.h>
#include <stdlib.h>
#include <sys/syscall.h>
#include <unistd.h>
void *__libc_malloc(size_t), *__libc_calloc(size_t, size_t), *__libc_realloc(void *, size_t), *__libc_memalign(size_t, size_t);
static _Atomic unsigned long count;
static int refused(void) {
    const char *from = getenv("REFUSE_FROM"), *to = getenv("REFUSE_TO");
    unsigned long at = ++count;
    return from && to && at >= strtoul(from, 0, 10) && at <= strtoul(to, 0, 10) && (errno = ENOMEM);
}
void *malloc(size_t size) { return refused() ? 0 : __libc_malloc(size); }
void *calloc(size_t items, size_t size) { return refused() ? 0 : __libc_calloc(items, size); }
void *realloc(void *had, size_t size) { return refused() ? 0 : __libc_realloc(had, size); }
void *aligned_alloc(size_t align, size_t size) { return refused() ? 0 : __libc_memalign(align, size); }
int posix_memalign(void **made, size_t align, size_t size) { *made = aligned_alloc(align, size); return *made ? 0 : ENOMEM; }
static void tell(void) {
    FILE *file = getenv("REFUSE_TOLD") ? fopen(getenv("REFUSE_TOLD"), "w") : 0;
    if (file && fprintf(file, "%lu", count) > 0) fclose(file);
}
void _exit(int status) {
    tell();
    syscall(SYS_exit_group, status);
    __builtin_unreachable();
}
"""


def library_in(room: str) -> Optional[str]:
    """The library that refuses memory, if there is a compiler of C."""
    with open(f"{room}/refuse.c", "w", encoding="ascii") as file:
        file.write(LIBRARY)
    words = ["cc", "-O1", "-shared", "-fPIC", "-o", f"{room}/refuse.so", f"{room}/refuse.c"]
    made = shutil.which("cc") and subprocess.run(words, capture_output=True).returncode == 0
    return f"{room}/refuse.so" if made else None


def refusing(library: str, first: int, last: int) -> Callable[[], None]:
    return lambda: os.environ.update(LD_PRELOAD=library, REFUSE_FROM=str(first), REFUSE_TO=str(last))


def is_refused(reply: str) -> bool:
    """Whether a reply may stand in place of another one if memory is refused."""
    return reply in (MEMORY, "refused disk-fault") or reply.startswith("refused read-only ")


class Tally:
    """What came of the trials: it prints the first ones that failed, and counts by kind."""

    def __init__(self) -> None:
        self.passed, self.failed = 0, 0
        self.kinds: Dict[str, Counter] = {}

    def add(self, of: str, what: str, kind: str, why: Optional[str]) -> None:
        self.kinds.setdefault(of, Counter())[kind] += 1
        self.passed, self.failed = self.passed + (why is None), self.failed + (why is not None)
        if why and self.failed <= MOST_TOLD:
            print(f"FAILED {of}, {what}: {why[:500]}", flush=True)

    def tell(self) -> None:
        """Prints the counts since the last time."""
        for of, counts in self.kinds.items():
            print(f"{of}: " + ", ".join(f"{count} {kind}" for kind, count in counts.most_common()), flush=True)
        self.kinds = {}

    def end(self) -> int:
        """Prints the last line, and gives the exit status."""
        print(f"{self.passed} passed, {self.failed} failed")
        return 1 if self.failed else 0


# ---- files


def contents(folder: str) -> Files:
    """The bytes of each file of a folder, by its name."""
    found = {}
    for name in sorted(os.listdir(folder)):
        with open(f"{folder}/{name}", "rb") as file:
            found[name] = file.read()
    return found


def lay(folder: str, files: Optional[Files]) -> None:
    """Makes a folder anew, with these files; with None it is missing."""
    shutil.rmtree(folder, ignore_errors=True)
    if files is None:
        return
    os.mkdir(folder, 0o700)
    for name, data in files.items():
        with open(f"{folder}/{name}", "wb") as file:
            file.write(data)


# ---- what is pushed


@dataclass
class Story:
    """Lines of a session, and the traces that its pushes have, by the line's place."""

    lines: List[str]
    traces: Dict[int, List[str]]

    def look_ups(self, most: int) -> List[str]:
        """Some of the traces' look-ups, of each push some."""
        each = max(1, most // len(self.traces))
        return [f"trace {it}" for of in self.traces.values() for it in of[:: -(-len(of) // each)]]


def attribute(key: str, value: object) -> dict:
    kind = "boolValue" if isinstance(value, bool) else "intValue" if isinstance(value, int) else "stringValue"
    return {"key": key, "value": {kind: value if isinstance(value, bool) else str(value)}}


def span(draw: random.Random, trace: str, parent: str, rich: bool) -> dict:
    start = 10**18 + draw.randrange(10**12)
    made = {
        "traceId": trace, "spanId": f"{draw.getrandbits(64) | 1:016x}", "parentSpanId": parent, "kind": draw.randrange(6),
        "name": draw.choice(["GET /checkout", "POST /charge", "größe", "bank"]), "startTimeUnixNano": str(start),
        "endTimeUnixNano": str(start + draw.randrange(10**9)), "status": {"code": draw.randrange(3), "message": draw.choice(["", "timed out"])},
        "attributes": [attribute("path", f"/orders/{draw.randrange(10**4)}"), attribute("code", draw.randrange(-300, 600)),
                       attribute("retried", draw.random() < 0.5)],
    }
    if rich and draw.random() < 0.5:
        made["events"] = [{"timeUnixNano": str(start), "name": "thrown", "attributes": [attribute("message", "no answer")]}]
        made["links"] = [{"traceId": trace, "spanId": "00000000000000b2", "attributes": []}]
    return made


def push_line(draw: random.Random, traces: Sequence[str], each: int, rich: bool = False) -> str:
    """A push of so many spans of each of these traces, each trace under a resource of its own."""
    resources = []
    for number, trace in enumerate(traces):
        spans: List[dict] = []
        for _ in range(each):
            spans.append(span(draw, trace, spans[0]["spanId"] if spans else "", rich))
        scope = {"scope": {"name": "lib", "version": "1"}, "spans": spans}
        resources.append({"resource": {"attributes": [attribute("service.name", f"svc-{number % 3}")]}, "scopeSpans": [scope]})
    return "push " + json.dumps({"resourceSpans": resources}, separators=(",", ":"))


def story(steps: str, traces: int, each: int, seed: int = 7) -> Story:
    """A session, one line for each letter: p a push of so many traces with so many spans each, r one with events and links, c cutall,
    f flush, j compact, l reclaim, t a look-up of the last push's first trace."""
    draw, made = random.Random(seed), Story([], {})
    words = {"c": "cutall", "f": "flush", "j": "compact", "l": "reclaim"}
    for step in steps:
        if step in "pr":
            ids = [f"{draw.getrandbits(128) | 1:032x}" for _ in range(traces)]
            made.traces[len(made.lines)] = ids
            made.lines.append(push_line(draw, ids, each, step == "r"))
        else:
            made.lines.append(words.get(step) or f"trace {list(made.traces.values())[-1][0]}")
    return made
