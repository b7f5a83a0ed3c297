"""README: its commands print what it shows, its tables are the tool's, its links lead somewhere."""

import contextlib
import io
import os
import re
import unittest

from lashtool.main import main
from lashtool.template import field_table, route_table
from tests.support import EXAMPLES, ROOT

README = (ROOT / "README.md").read_text()
PICTURES = {
    "docs/eight-high.svg": ["examples/eight-high.toml"],
    "docs/side-walls.svg": ["examples/side-walls.toml", "--side"],
    "docs/open-gap.svg": ["bay", "examples/bays/open-gap.toml"],
}


def lash(words):
    """What ./lash prints in the project's folder, by the proved library."""
    out, before = io.TextIOWrapper(io.BytesIO(), "utf-8"), os.getcwd()
    with contextlib.redirect_stdout(out), contextlib.redirect_stderr(io.StringIO()):
        os.chdir(ROOT)
        try:
            main(words)
        finally:
            os.chdir(before)
    out.flush()
    return out.buffer.getvalue().decode()


def commands():
    """(words, the output shown) of each command in README."""
    for block in re.findall(r"```console\n(.*?)```", README, re.S):
        for words, shown in re.findall(r"^\$ \./lash (.*)\n((?:(?!\$ ).*\n)*)", block, re.M):
            yield words.split(), shown


class Readme(unittest.TestCase):
    def test_commands_print_what_is_shown(self):
        found = list(commands())
        self.assertGreaterEqual(len(found), 4)
        for words, shown in found:
            with self.subTest(words=words):
                printed = lash(words)
                if shown.endswith("...\n"):
                    self.assertTrue(printed.startswith(shown.removesuffix("...\n")), printed)
                else:
                    self.assertEqual(printed, shown)

    def test_the_small_stack_is_an_example(self):
        (text,) = re.findall(r"```toml\n(.*?)```", README, re.S)
        self.assertEqual(text, (EXAMPLES / "three-high.toml").read_text())

    def test_the_pictures_are_what_the_tool_draws(self):
        for picture, words in PICTURES.items():
            self.assertIn(f"]({picture})", README)
            self.assertEqual((ROOT / picture).read_text(), lash([*words, "--svg", "-"]))

    def test_tables_are_those_of_the_tool(self):
        for table in (field_table(), route_table()):
            self.assertIn("\n\n" + "\n".join(table) + "\n\n", README)

    def test_links_lead_somewhere(self):
        links = re.findall(r"\]\(([^)]+)\)", README)
        self.assertGreater(len(links), 5)
        for link in links:
            self.assertTrue((ROOT / link).exists(), link)

    def test_statements_stand_where_it_says(self):
        files = re.findall(r"`(crates/\w+/specs/(?:Inner/)?\w+)`", README)
        self.assertGreater(len(files), 10)
        for name in files:
            self.assertTrue((ROOT / f"{name}.antt").is_file(), name)
        crates = re.findall(r"^\| `(\w+)` \|", README.split("| crate | holds |")[1], re.M)
        self.assertEqual(sorted(crates), sorted(path.name for path in (ROOT / "crates").iterdir()))


if __name__ == "__main__":
    unittest.main()
