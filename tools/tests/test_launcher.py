"""Tests ./vurnda and tools/prove over a kit that proves nothing (rt_stub.py)."""
import os
import pty
import re
import shutil
import signal
import subprocess
import tempfile
import time
import unittest

HERE = os.path.dirname(os.path.realpath(__file__))
TOP = os.path.dirname(os.path.dirname(HERE))
CRATES = "low:\nleft: low\nright: low\nlong: left low\nvurnda: long left right low\nother_tests: low\n"


class Launcher(unittest.TestCase):
    def setUp(self):
        self.room = tempfile.mkdtemp(prefix="vurnda-launcher-")
        self.addCleanup(shutil.rmtree, self.room)
        os.makedirs(f"{self.room}/bin")
        shutil.copy(f"{HERE}/rt_stub.py", f"{self.room}/bin/rt")
        os.chmod(f"{self.room}/bin/rt", 0o755)
        self.top = f"{self.room}/top"
        os.makedirs(f"{self.top}/tools")
        for name in ("vurnda", "tools/prove"):
            shutil.copy(f"{TOP}/{name}", f"{self.top}/{name}")
        shutil.copytree(f"{TOP}/examples", f"{self.top}/examples")
        with open(f"{self.top}/crates.txt", "w", encoding="ascii") as file:
            file.write(CRATES)
        for line in CRATES.splitlines():
            os.makedirs(f"{self.top}/crates/{line.split(':')[0]}/src")
            with open(f"{self.top}/crates/{line.split(':')[0]}/src/lib.rt", "w", encoding="ascii"):
                pass

    def environment(self, **more):
        path = f"{self.room}/bin:{os.environ['PATH']}"
        return {**os.environ, "PATH": path, "STUB_EVENTS": f"{self.room}/events", "PYTHONDONTWRITEBYTECODE": "1", **more}

    def run_it(self, *words, given="", **more):
        return subprocess.run([f"{self.top}/vurnda", *words], input=given, capture_output=True, text=True, timeout=60, env=self.environment(**more))

    def prove(self, *words, **more):
        return subprocess.run([f"{self.top}/tools/prove", *words], capture_output=True, text=True, check=True, timeout=60, env=self.environment(**more))

    def events(self):
        if not os.path.exists(f"{self.room}/events"):
            return []
        with open(f"{self.room}/events", encoding="utf-8") as file:
            return file.read().splitlines()

    def begun(self):
        return [line.split()[1] for line in self.events() if line.startswith("begin")]

    def test_first_command_proves_each_crate_once_above_its_own_and_runs(self):
        ran = self.run_it("store", "ingest", given="a line\n")
        self.assertEqual((ran.stdout, ran.returncode), ("store ingest\na line\n", 0))
        self.assertEqual(sorted(self.begun()), ["left", "long", "low", "right"])
        for line in self.events():
            self.assertRegex(line, r"^end \w+$|^begin \w+ --jobs \d+$")  # nothing below was missing
        self.assertIn("4 of 4 crates proved", ran.stderr)

    def test_crates_run_side_by_side(self):
        with open("/proc/meminfo", encoding="ascii") as file:
            if int(re.search(r"MemAvailable:\s+(\d+)", file.read())[1]) < 6_000_000:
                self.skipTest("too little memory is free for two checks")
        self.prove("--jobs", "2", STUB_SECONDS="0.3")
        self.assertEqual(self.events()[:2], ["begin low --jobs 2", "end low"])
        self.assertEqual(sorted(self.events()[2:4]), ["begin left --jobs 1", "begin right --jobs 1"])

    def test_one_processor_proves_the_longest_chain_first(self):
        self.prove("--jobs", "1")
        self.assertEqual([line.split()[0] for line in self.events()], ["begin", "end"] * 4)
        self.assertEqual(self.begun()[:2], ["low", "left"])

    def test_nothing_is_built_again(self):
        self.run_it("store", "session")
        first = self.events()
        ran = self.run_it("store", "session")
        self.assertEqual((self.events(), ran.stderr, ran.returncode), (first, "", 0))

    def test_a_changed_source_is_built_again(self):
        self.run_it("store", "session")
        os.remove(f"{self.top}/crates/long/out/rlib/stamp")
        later = time.time() + 2
        os.utime(f"{self.top}/crates/long/src/lib.rt", (later, later))
        self.run_it("store", "session")
        self.assertEqual(self.begun().count("long"), 2)
        self.assertEqual(len(self.begun()), 5)

    def test_a_crate_that_is_not_proved_stops_all_and_the_next_run_goes_on(self):
        ran = self.run_it("store", "session", STUB_FAILS="left")
        self.assertEqual((ran.returncode, ran.stdout), (126, ""))
        self.assertIn("the crate left is not proved", ran.stderr)
        self.assertIn("fn wrong: not proved", ran.stderr)
        self.assertIn(f"{self.top}/crates/left/out/prove.log", ran.stderr)
        ran = self.run_it("store", "session")
        self.assertEqual(ran.returncode, 0)
        self.assertEqual(self.begun().count("low"), 1)

    def test_an_error_of_the_kit_itself_stops_all(self):
        ran = self.run_it("store", "session", STUB_STUMBLES="left")
        self.assertEqual(ran.returncode, 126)
        self.assertIn("OSError: the disk is full", ran.stderr)

    def interrupted(self, number, is_group):
        how = {"env": self.environment(STUB_SECONDS="20"), "stdin": subprocess.DEVNULL, "stdout": subprocess.PIPE, "stderr": subprocess.PIPE}
        ran = subprocess.Popen([f"{self.top}/vurnda", "store", "session"], start_new_session=True, **how)
        for _ in range(200):
            if self.begun():
                break
            time.sleep(0.05)
        (os.killpg if is_group else os.kill)(ran.pid, number)
        ran.communicate(timeout=10)
        return ran.returncode

    def test_ctrl_c_ends_the_build(self):
        self.assertEqual(self.interrupted(signal.SIGINT, True), 130)

    def test_a_kill_ends_the_build(self):
        self.assertEqual(self.interrupted(signal.SIGTERM, False), 143)

    def test_statuses_are_passed_on_and_explained(self):
        self.run_it("store", "session")
        for status, words in ((0, ""), (1, "standard output failed"), (2, "usage: "), (3, "standard input failed"),
                              (4, "the folder 'store' can't be used"), (5, "are no store"), (6, "out of memory"), (7, ""),
                              (8, "the most bytes")):
            ran = self.run_it("store", "session", STUB_STATUS=str(status))
            self.assertEqual(ran.returncode, status)
            self.assertEqual(bool(ran.stderr), bool(words))
            self.assertIn(words, ran.stderr)
            self.assertTrue(status == 2 or ran.stderr.count("\n") <= 1)

    def test_help_needs_no_kit_and_builds_nothing(self):
        for words in (["-h"], ["--help"]):
            ran = self.run_it(*words)
            self.assertEqual((ran.returncode, ran.stderr), (0, ""))
            self.assertTrue(ran.stdout.startswith("usage: ./vurnda FOLDER ingest"))
        ran = self.run_it()
        self.assertEqual((ran.returncode, ran.stdout), (2, ""))
        self.assertTrue(ran.stderr.startswith("usage: "))
        self.assertRegex(self.run_it("--version").stdout, r"^vurnda .+, proved with rattle-kit-13, logic [0-9a-f]{16}\n$")
        self.assertEqual(self.events(), [])

    def test_a_folder_may_be_named_like_an_option(self):
        self.assertEqual(self.run_it("./--help", "trace", "x").stdout, "./--help trace x\n")

    def test_another_kit_is_refused(self):
        for other in ("rattle-kit-9 logic dac8208d650f15bf", "rattle-kit-13f logic 0000000000000000", "rattle-kit-13f"):
            ran = self.run_it("store", "session", STUB_KIT=other)
            self.assertEqual((ran.returncode, self.events()), (126, []))
            self.assertIn(other, ran.stderr)

    def test_kits_of_one_logic_are_one_kit(self):
        for letter in "bf":
            ran = self.run_it("store", "session", STUB_KIT=f"rattle-kit-13{letter} logic dac8208d650f15bf")
            self.assertEqual(ran.returncode, 0)

    def test_without_a_kit(self):
        os.remove(f"{self.room}/bin/rt")
        path = os.pathsep.join(it for it in os.environ["PATH"].split(os.pathsep) if not os.path.exists(f"{it}/rt"))
        ran = self.run_it("store", "session", PATH=path)
        self.assertEqual(ran.returncode, 127)

    def test_a_look_without_proof(self):
        ran = self.run_it("--unproved")
        with open(f"{TOP}/examples/quick-look.txt", encoding="utf-8") as file:
            self.assertEqual(ran.stdout, f"--seconds 300 -- store session\n{file.read()}")
        self.assertTrue(ran.stderr.startswith("vurnda: NOTHING OF THIS RUN IS PROVED, and it keeps nothing"))
        self.assertEqual((ran.returncode, self.events()), (0, []))

    def test_other_words_without_proof_get_a_copy_of_the_store(self):
        os.makedirs(f"{self.room}/store")
        for name in ("0.dat", "lock", "other"):
            with open(f"{self.room}/store/{name}", "w", encoding="ascii"):
                pass
        ran = self.run_it("--unproved", f"{self.room}/store", "trace", "x", STUB_STATUS="5", given="cut\n")
        self.assertIn(f"--data store/0.dat={self.room}/store/0.dat", ran.stdout)
        self.assertNotIn("other", ran.stdout)
        self.assertTrue(ran.stdout.endswith("-- store trace x\ncut\n"))
        self.assertEqual(ran.returncode, 5)
        self.assertIn("are no store", ran.stderr)

    def test_progress_is_one_line_on_a_terminal(self):
        ours, theirs = pty.openpty()
        ran = subprocess.Popen([f"{self.top}/tools/prove", "--jobs", "2"], env=self.environment(TERM="xterm"), stderr=theirs)
        os.close(theirs)
        said = b""
        try:
            while more := os.read(ours, 4096):
                said += more
        except OSError:
            pass
        os.close(ours)
        self.assertEqual(ran.wait(timeout=60), 0)
        self.assertEqual(said.count(b"\n"), 1)
        self.assertIn(b"\r\x1b[Kvurnda: 4 of 4 crates proved", said)


if __name__ == "__main__":
    unittest.main()
