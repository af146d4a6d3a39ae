"""Tests tools/check-examples, tools/check-pages and .ci/run over a program and a kit that only stand in for them."""
import os
import re
import shutil
import subprocess
import tempfile
import unittest

HERE = os.path.dirname(os.path.realpath(__file__))
TOP = os.path.dirname(os.path.dirname(HERE))
PROGRAM = f"{HERE}/program_stub.py"


class Checks(unittest.TestCase):
    def setUp(self):
        self.top = tempfile.mkdtemp(prefix="vurnda-checks-")
        self.addCleanup(shutil.rmtree, self.top)
        os.makedirs(f"{self.top}/tools")
        for name in ("check-examples", "check-pages"):
            shutil.copy(f"{TOP}/tools/{name}", f"{self.top}/tools/{name}")
        shutil.copytree(f"{TOP}/examples", f"{self.top}/examples")
        subprocess.run(["git", "init", "-q", self.top], check=True)

    def run_it(self, tool, *words):
        how = {"capture_output": True, "text": True, "timeout": 120, "env": {**os.environ, "EXAMPLES": f"{TOP}/examples"}}
        return subprocess.run([f"{self.top}/tools/{tool}", PROGRAM, *words], **how)

    def failed(self, ran):
        found = re.findall(r"^FAILED .*", ran.stdout, re.M)
        self.assertEqual(ran.returncode, 1 if found else 0, ran.stderr)
        return found

    def write(self, name, text):
        with open(f"{self.top}/{name}", "w", encoding="utf-8") as file:
            file.write(text)

    def test_the_examples_pass(self):
        self.assertEqual(self.failed(self.run_it("check-examples")), [])

    def test_a_number_that_is_changed_is_found(self):
        """In each file the last digit is changed; in replies also without the sums."""
        for name in sorted(os.listdir(f"{self.top}/examples")):
            with open(f"{TOP}/examples/{name}", encoding="utf-8") as file:
                text = file.read()
            at = max(found.start() for found in re.finditer(r"\d", text))
            self.write(f"examples/{name}", text[:at] + ("8" if text[at] != "8" else "7") + text[at + 1 :])
            failed = self.failed(self.run_it("check-examples"))
            self.assertTrue(failed, name)
            if name.endswith(".replies"):
                self.assertIn("reply", failed[0])
            self.write(f"examples/{name}", text)

    def test_a_reply_too_many_or_too_few_is_found(self):
        with open(f"{TOP}/examples/first.replies", encoding="utf-8") as file:
            lines = file.readlines()
        for changed in (lines[:-1], lines + lines[-1:]):
            self.write("examples/first.replies", "".join(changed))
            self.assertIn("replies, and", self.failed(self.run_it("check-examples"))[0])

    def test_the_sums_see_a_file_more_and_a_file_less(self):
        self.write("examples/more.txt", "push {}\n")
        self.assertIn("not more.txt", self.failed(self.run_it("check-examples"))[0])
        os.remove(f"{self.top}/examples/more.txt")
        self.write("examples/SHA256SUMS", "0 gone.txt\n")
        self.assertIn("gone.txt", self.failed(self.run_it("check-examples"))[0])

    def pages(self, text):
        self.write("PAGE.md", text)
        return self.run_it("check-pages", "PAGE.md")

    def test_blocks_of_a_page_run_in_turn_in_one_copy(self):
        ran = self.pages("A page.\n\n```sh\necho one > /tmp/made\n```\n\n```sh\ncat /tmp/made examples/first.txt > all\n```\n\n```\nfalse\n```\n")
        self.assertEqual((self.failed(ran), ran.stdout), ([], "ok PAGE.md, line 3\nok PAGE.md, line 7\n"))
        self.assertFalse(os.path.exists(f"{self.top}/all"))

    def test_a_command_that_fails_is_found(self):
        self.assertEqual(self.failed(self.pages("```sh\ntrue\nfalse\ntrue\n```\n")), ["FAILED PAGE.md, line 1: it ended with status 1: nothing on standard error"])
        self.assertEqual(len(self.failed(self.pages("```sh\nfalse | cat\n```\n"))), 1)

    def test_a_block_that_is_not_run(self):
        self.assertEqual(self.failed(self.pages("```sh not-run\nfalse\n```\n")), [])
        self.assertEqual(len(self.failed(self.pages("```sh later\nfalse\n```\n"))), 1)

    def test_what_a_page_says_that_a_block_printed(self):
        page = "```sh\necho one\necho two\n```\nprints\n```text printed\n{}\n```\n"
        self.assertEqual(self.failed(self.pages(page.format("one\ntwo"))), [])
        self.assertEqual(self.failed(self.pages(page.format("two"))), [])
        self.assertEqual(len(self.failed(self.pages(page.format("three")))), 1)

    def gate(self, said, status, others):
        """What .ci/run gives if rt ci says this and ends so, and tools/check-all too."""
        for folder in (".ci", "bin"):
            os.makedirs(f"{self.top}/{folder}", exist_ok=True)
        shutil.copy(f"{TOP}/.ci/run", f"{self.top}/.ci/run")
        for name, text in (("bin/rt", f"echo \"$*\"\nprintf '{said}'\nexit {status}\n"), ("tools/check-all", others)):
            self.write(name, f"#!/bin/sh\n{text}")
            os.chmod(f"{self.top}/{name}", 0o755)
        path = f"{self.top}/bin:{os.environ['PATH']}"
        ran = subprocess.run([f"{self.top}/.ci/run"], capture_output=True, text=True, timeout=60, env={**os.environ, "PATH": path})
        self.assertEqual(ran.stdout.splitlines()[0], "ci")
        return ran.stdout.splitlines()[-1], ran.returncode

    def test_the_gate_sums_up(self):
        good, bad = "echo '3 passed, 0 failed'", "echo '2 passed, 1 failed'; exit 1"
        self.assertEqual(self.gate("140 passed, 0 failed\\n", 0, good), ("143 passed, 0 failed", 0))
        self.assertEqual(self.gate("139 passed, 1 failed\\n", 1, good), ("142 passed, 1 failed", 1))
        self.assertEqual(self.gate("140 passed, 0 failed\\n", 0, bad), ("142 passed, 1 failed", 1))
        self.assertEqual(self.gate("140 passed, 0 failed\\n", 0, "exit 1"), ("140 passed, 1 failed", 1))
        self.assertEqual(self.gate("killed\\n", 0, good), ("3 passed, 1 failed", 1))
        self.assertEqual(self.gate("140 passed, 0 failed\\n", 2, good), ("143 passed, 1 failed", 1))


if __name__ == "__main__":
    unittest.main()
