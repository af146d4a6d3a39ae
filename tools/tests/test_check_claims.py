"""What tools/check-claims accepts and refuses, over a checkout of one crate that is made here."""
import os
import subprocess
import sys
import tempfile
import unittest

TOOL = os.path.join(os.path.dirname(os.path.dirname(os.path.realpath(__file__))), "check-claims")
FILES = {
    "crates.txt": "# a layer\nlogs: thiserror\nvurnda: logs\n",
    "crates/logs/src/lib.rt": "pub fn append(n: u8)\n    ensures any_moment { n }\n{}\n",
    "crates/logs/specs/Kept.antt": "pub record IsKept (n : ℕ) (ns : List (List ℕ)) : Type 0 where\n  pub stays : n ≡ n\n",
    "crates/logs/must-fail/lost.edit": "",
    "crates/logs/README.md": "# Logs\n\n| clause | says |\n|---|---|\n| `append`: `any_moment`, `IsKept` | it is kept |\n",
    "docs/PROVED.md": "# All\n\nIt is kept (`stays`).\n\n| crate | clause |\n|---|---|\n| [logs](../crates/logs/README.md) | `any_moment` |\n",
    "README.md": "Read [this](docs/PROVED.md#all). There are 2 crates and 1 must-fail edits.\n",
}


class Pages(unittest.TestCase):
    def said(self, changes):
        """The lines of the tool over the files with these changes (page, old, new) that say what is wrong."""
        files = dict(FILES)
        for page, old, new in changes:
            self.assertIn(old, files[page])
            files[page] = files[page].replace(old, new)
        with tempfile.TemporaryDirectory() as top:
            for name, text in files.items():
                os.makedirs(os.path.dirname(f"{top}/{name}"), exist_ok=True)
                with open(f"{top}/{name}", "w", encoding="utf-8") as file:
                    file.write(text)
            ended = subprocess.run([sys.executable, TOOL, top], stdout=subprocess.PIPE, text=True, check=False)
        wrong = [line for line in ended.stdout.split("\n") if line.startswith("FAILED")]
        self.assertEqual(ended.returncode, 1 if wrong else 0)
        return wrong

    def test_right_pages(self):
        self.assertEqual(self.said([]), [])

    def test_a_clause_that_is_none(self):
        for page in ["crates/logs/README.md", "docs/PROVED.md"]:
            self.assertEqual(self.said([(page, "any_moment", "each_moment")])[0], f"FAILED {page}: no each_moment in logs")

    def test_a_name_in_brackets(self):
        self.assertEqual(self.said([("docs/PROVED.md", "stays", "leaves")]), ["FAILED docs/PROVED.md: no leaves in any crate"])

    def test_a_clause_that_is_renamed(self):
        self.assertEqual(len(self.said([("crates/logs/src/lib.rt", "any_moment", "each_moment")])), 3)

    def test_links(self):
        self.assertEqual(self.said([("README.md", "#all", "#some")]), ["FAILED README.md: no heading docs/PROVED.md#some"])
        self.assertEqual(self.said([("README.md", "PROVED.md#all", "PROOF.md")]), ["FAILED README.md: no file docs/PROOF.md"])

    def test_numbers(self):
        self.assertEqual(self.said([("README.md", "2 crates", "9 crates")]), ["FAILED README.md: 9 crates, and there are 1 or 2"])
        self.assertEqual(self.said([("README.md", "1 must", "3 must")]), ["FAILED README.md: 3 must-fail edits, and there are 1"])

    def test_a_crate_without_a_page(self):
        self.assertEqual(self.said([("docs/PROVED.md", "crates/logs/README.md", "README.md")])[-1], "FAILED docs/PROVED.md: no link to crates/logs")


if __name__ == "__main__":
    unittest.main()
