#!/usr/bin/env python3
"""Stands in for the program in the tests of tools/served: clients and a session over pushes that a file of the folder keeps.

SERVE_WRONG says what is wrong with it: `younger` shows the last occurrence of a span, `late` shows a push before it has happened,
`twice` gives a push's number again, `again` flushes the same rows twice, `early` frees a client of its order, `lost` keeps no last push.
"""
import json
import os
import random
import sys

WRONG = os.environ.get("SERVE_WRONG", "")


class Store:
    def __init__(self, path):
        os.makedirs(path, exist_ok=True)
        self.file = f"{path}/pushes"
        self.pushes, self.cut, self.flushed = [], 0, 0
        if os.path.exists(self.file):
            with open(self.file, encoding="utf-8") as file:
                self.pushes = json.load(file)

    def keep(self):
        with open(self.file, "w", encoding="utf-8") as file:
            json.dump(self.pushes[: -1 if WRONG == "lost" else None], file)

    def firsts(self):
        found = {}
        for push in self.pushes:
            for trace, span, name in push:
                if WRONG == "younger" or (trace, span) not in found:
                    found[trace, span] = name
        return found

    def push(self, text):
        try:
            spans = json.loads(text)["resourceSpans"][0]["scopeSpans"][0]["spans"]
        except ValueError:
            return "refused bad-json"
        self.pushes.append([(it["traceId"], it["spanId"], it["name"]) for it in spans])
        number = len(self.pushes) - 1 - (WRONG == "twice" and len(self.pushes) > 2)
        return f"ok push {number} accepted={len(spans)} rejected=0 skipped=0"

    def answer(self, line):
        word, _, rest = line.partition(" ")
        as_of = len(self.pushes) + (WRONG == "late")
        if word == "push":
            return self.push(rest)
        if word == "trace":
            spans = [{"spanId": key[1], "name": name} for key, name in self.firsts().items() if key[0] == rest]
            return f"ok trace as_of={as_of} spans={len(spans)} " + json.dumps({"resourceSpans": [{"scopeSpans": [{"spans": spans}]}]})
        if word == "search":
            traces = sorted({key[0] for key, name in self.firsts().items() if name == "b" or "name" not in rest})
            return f"ok search as_of={as_of} traces={len(traces)} " + json.dumps({"traces": [{"traceId": it} for it in traces]})
        if word == "cutall":
            moved, self.cut = sum(map(len, self.pushes[self.cut :])), len(self.pushes)
            return f"ok cutall moved={moved}"
        if word == "flush":
            rows = {(trace, span) for push in self.pushes[self.flushed : self.cut] for trace, span, _ in push}
            self.flushed = 0 if WRONG == "again" else self.cut
            return f"ok flush rows={len(rows)}" if rows else "ok flush nothing"
        return {"cut": "ok cut moved=0", "compact": "ok compact nothing", "reclaim": "ok reclaim files=0"}.get(word, "refused bad-request at=0")


def main(folder, word, *words):
    store, lines = Store(folder), sys.stdin.read().splitlines()
    if word == "session":
        replies = [store.answer(line) for line in lines]
        print(*replies, sep="\n")
        return 0
    clients, rounds = int(words[1]), int(words[3])
    asked = [[line.partition(" ")[2] for line in lines if int(line.split(" ")[0]) == client] for client in range(clients)]
    asked += [["cut", "flush"] * rounds, ["compact", "reclaim"] * rounds] if rounds else []
    replies = [[] for _ in asked]
    turns = [client for client, items in enumerate(asked) for _ in items]
    random.Random(str(lines)).shuffle(turns)
    places = [list(enumerate(items)) for items in asked]
    for client in turns:
        place, line = places[client].pop(-1 if WRONG == "early" else 0)
        replies[client].append((place, store.answer(line)))
    store.keep()
    told = [(client, reply) for client, items in enumerate(replies) for _, reply in sorted(items)]
    print(*(f"{client} {reply}" for client, reply in told), sep="\n")
    return 7 if any(reply.startswith("refused") for _, reply in told) else 0


if __name__ == "__main__":
    sys.exit(main(*sys.argv[1:]))
