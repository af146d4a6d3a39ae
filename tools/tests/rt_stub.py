#!/usr/bin/env python3
"""Stands in for the kit's rt in tests of ./vurnda and tools/prove: it proves nothing, and takes a moment for each crate.

STUB_SECONDS is that moment, STUB_FAILS a crate that isn't proved, STUB_STUMBLES one at which
the kit itself fails, STUB_STATUS the exit status of the program that it makes, and
STUB_EVENTS a file that gets a line for each begin and end of a check.
"""
import os
import shutil
import subprocess
import sys
import types


class Crate:
    """What tools/prove uses of the kit's class."""

    def __init__(self, folder, root, known):
        self.folder, self.name, self.out, self.deps = folder, os.path.basename(folder), sys.stdout, []
        with open(f"{root}/crates.txt", encoding="utf-8") as file:
            listed = dict(line.split("#")[0].split(":") for line in file if ":" in line)
        for name in listed[self.name].split():
            if name in listed:
                if name not in known:
                    known[name] = Crate(f"{root}/crates/{name}", root, known)
                self.deps.append(known[name])

    def below(self):
        found = []
        for dep in self.deps:
            found += [it for it in [*dep.below(), dep] if it not in found]
        return found

    def is_built(self):
        return os.path.isfile(f"{self.folder}/out/rlib/stamp")

    def call(self, *words):
        return subprocess.run(words, stdout=self.out, stderr=self.out, stdin=subprocess.DEVNULL).returncode

    def build_rlib(self, flags, anew):
        tell(f"begin {self.name} {' '.join(flags)} {' '.join(it.name for it in self.below() if not it.is_built())}".strip())
        status = self.call("sleep", os.environ.get("STUB_SECONDS", "0.05"))
        if self.name == os.environ.get("STUB_FAILS"):
            print("fn wrong: not proved", file=self.out)
            return 1
        if self.name == os.environ.get("STUB_STUMBLES"):
            raise OSError("the disk is full")
        shutil.rmtree(f"{self.folder}/out/rlib", ignore_errors=True)
        os.makedirs(f"{self.folder}/out/rlib")
        with open(f"{self.folder}/out/rlib/stamp", "w", encoding="ascii"):
            pass
        tell(f"end {self.name}")
        return status


def tell(line):
    if "STUB_EVENTS" in os.environ:
        with open(os.environ["STUB_EVENTS"], "a", encoding="utf-8") as file:
            print(line, file=file)


def share_work(_is_alone):
    """The kit's takes over what other checkouts proved."""


rtlib = types.SimpleNamespace(Crate=Crate, guarded=lambda: [], lock=lambda crates: [], stop_on_links=lambda folder: None)


def main(verb, *words):
    if verb == "version":
        print(os.environ.get("STUB_KIT", "rattle-kit-13b logic dac8208d650f15bf"))
    elif verb == "run":
        os.makedirs("out", exist_ok=True)
        with open("out/vurnda", "w", encoding="ascii") as file:
            file.write('#!/bin/sh\necho "$@"\ncat\nexit ${STUB_STATUS:-0}\n')
        os.chmod("out/vurnda", 0o755)
    elif verb == "try":
        print(" ".join(words))
        print(sys.stdin.read(), end="")
        print(f"run=ended status={os.environ.get('STUB_STATUS', '0')} proved=no", file=sys.stderr)
        return int(os.environ.get("STUB_STATUS", "0"))
    else:
        return 2
    return 0


if __name__ == "__main__":
    sys.exit(main(*sys.argv[1:]))
