"""./lash as a command: its statuses, files and messages, and no trace on bad input."""

import contextlib
import json
import os
import re
import subprocess
import sys
import tempfile
import unittest
from pathlib import Path
from xml.etree import ElementTree

from lashtool.sources import LARGEST_FILE
from sheets.sheet import parse
from tests.support import (
    B_ANSWER, B_END, EXAMPLES, PULLED_BACK_ANSWER, ROOT, answer_bytes, lash, library_of,
)

# Output is held back until the end, as it is for most users.
BUFFERED = {name: value for name, value in os.environ.items() if name != "PYTHONUNBUFFERED"}
BOX_B_HEX = "0100010020a107000128001f0a204ef401dc0520030000"


class InPlace(unittest.TestCase):
    def setUp(self):
        folder = tempfile.TemporaryDirectory()
        self.addCleanup(folder.cleanup)
        self.folder = Path(folder.name)

    def file(self, name, data):
        path = self.folder / name
        path.write_bytes(data)
        return path

    def test_write_and_take_a_sheet(self):
        path = self.folder / "b.sheet"
        status, _, _ = lash(EXAMPLES / "box-b.toml", "--write", path, output=B_ANSWER)
        self.assertEqual((status, path.read_bytes().hex()), (0, BOX_B_HEX))
        status, text, errors = lash("--sheet", path, output=B_ANSWER)
        self.assertEqual((status, errors), (0, ""))
        self.assertTrue(text.startswith("ACCEPTED\nworst use of a limit: "))

    def test_standard_input(self):
        text = (EXAMPLES / "box-b.toml").read_bytes()
        self.assertEqual(lash("-", output=B_ANSWER, stdin=text)[0], 0)
        self.assertEqual(lash("--sheet", "-", output=B_ANSWER, stdin=bytes.fromhex(BOX_B_HEX))[0], 0)

    def test_refused(self):
        path = self.file("short.sheet", b"\x01\x02")
        status, text, errors = lash("--sheet", path, "--svg", self.folder / "no.svg", output=b"1 2\n")
        self.assertEqual((status, text), (2, ""))
        meaning = "the sheet has 2 bytes, too few for the head (bytes 0 to 7)"
        self.assertEqual(errors, f"lash: {path}: refused with 1 2: {meaning}\n")
        self.assertFalse((self.folder / "no.svg").exists())
        status, text, _ = lash("--sheet", path, "--json", output=b"1 2\n")
        self.assertEqual(status, 2)
        self.assertEqual(json.loads(text)["refused"], {"number": 1, "second": 2, "meaning": meaning})

    def test_a_description_is_never_refused_by_offsets(self):
        """What the check would turn back is said in the description's own words."""
        text = (EXAMPLES / "rod-s.toml").read_text()
        lash_again = text[text.index("[[lash]]") :]
        for change, message in (
            (text.replace("tier = 2", "tier = 3"), "lash 1: tier 3 is not in this stack of 2 tiers"),
            (text + lash_again, "lash 2: given twice: tier 2 top cross at the door end is lash 1 already"),
        ):
            path = self.file("stack.toml", change.encode())
            status, _, errors = lash(path, output=b"11 34\n")
            self.assertEqual((status, errors), (2, f"lash: {path}: {message}\n"))

    def test_the_template_is_a_description(self):
        status, text, errors = lash("--template")
        self.assertEqual((status, errors), (0, ""))
        end = ((1_000,) * 3, (1_000,) * 4, (1_000,) * 3, ((1_000,) * 3,) * 2)
        status, report, errors = lash("-", stdin=text.encode(), output=answer_bytes(end, end))
        self.assertEqual((status, errors), (0, ""))
        self.assertNotIn("not given", report)

    def test_warnings(self):
        """On standard error beside the report; the status is the verdict's."""
        path = EXAMPLES / "pulled-back.toml"
        for words in ((), ("--json",)):
            status, text, errors = lash(path, *words, output=PULLED_BACK_ANSWER)
            self.assertEqual((status, errors.count("\n")), (1, 1))
            warning = "lash 2 (tier 6 top side, door end): its foot lies 4,000 mm to windward of the stack"
            self.assertTrue(errors.startswith(f"lash: {path}: warning: {warning}"), errors)
            self.assertIn(warning, text)
        self.assertEqual(lash(EXAMPLES / "box-b.toml", output=B_ANSWER)[2], "")

    def test_bad_descriptions(self):
        for name, data, message in (
            ("garbage.toml", bytes(range(256)), "byte 0x80 in line 2, column 118 is no UTF-8"),
            ("broken.toml", b"[[", "this is no TOML"),
            ("empty.toml", b"", "tier: a stack has 1 to 10 of [[tier]], not 0"),
        ):
            path = self.file(name, data)
            status, text, errors = lash(path, output=B_ANSWER)
            self.assertEqual((status, text), (2, ""))
            self.assertIn(f"lash: {path}: {message}", errors)
            status, text, _ = lash(path, "--json", output=B_ANSWER)
            self.assertEqual(status, 2)
            self.assertIn(message, json.loads(text)["error"])

    def test_rules_that_there_are_not(self):
        text = (EXAMPLES / "fleet-standard.toml").read_text()
        for value, message in (
            ("0", "rule 0 has to be 1 or 2"),
            ("3", "rule 3 has to be 1 or 2"),
            ("-1", "rule -1 has to be 1 or 2"),
            ("1" * 300, "rule 1111111111111111111111111111111111111... has to be 1 or 2"),
            ("'2'", 'rule is "2"; it has to be a whole number, 1 or 2'),
            ("2.0", "rule is 2.0; it has to be a whole number, 1 or 2"),
            ("true", "rule is True; it has to be a whole number, 1 or 2"),
            ("nan", "rule is nan; it has to be a whole number, 1 or 2"),
            ("2024-04-01", "rule is 2024-04-01; it has to be a whole number, 1 or 2"),
            ("{}", "rule is {}; it has to be a whole number, 1 or 2"),
        ):
            path = self.file("stack.toml", text.replace("rule = 2 ", f"rule = {value} ").encode())
            self.assertEqual(lash(path), (2, "", f"lash: {path}: the stack: {message}\n"))

    def test_missing_file_and_folder(self):
        missing = self.folder / "none.toml"
        for words, reason in (
            ((missing,), "No such file"),
            (("--sheet", missing), "No such file"),
            (("--sheet", self.folder), "Is a directory"),
            (("a\0b",), "embedded null"),
            (("--sheet", "a\0b"), "embedded null"),
        ):
            status, text, errors = lash(*words, output=B_ANSWER)
            self.assertEqual((status, text), (2, ""))
            self.assertIn(f"lash: {words[-1]}: cannot be read: {reason}", errors)

    def padded(self, size):
        """Box B, and behind this many bytes a second tier."""
        text = (EXAMPLES / "box-b.toml").read_bytes()
        tier = b"\n[[tier]]\nmass = 30000\nA_T = 1\nA_Vmax = 1\nA_Vmin = 1\n"
        return text + b"#" * (size - len(text) - len(tier)) + tier

    def test_a_description_is_never_checked_in_part(self):
        for size in (LARGEST_FILE + 1, 1_000_100):
            path = self.file("long.toml", self.padded(size))
            status, text, errors = lash(path, output=B_ANSWER)
            self.assertEqual((status, text), (2, ""))
            self.assertEqual(errors.count("\n"), 1)
            self.assertIn("has more than 65,536 bytes", errors)
            self.assertEqual(lash("-", output=B_ANSWER, stdin=self.padded(size))[0], 2)
            self.assertEqual(lash("--sheet", path, output=B_ANSWER)[0], 2)

    def test_the_longest_description_is_checked_whole(self):
        end = ((1, 1), (1, 1, 1), (1, 1))
        path = self.file("long.toml", self.padded(LARGEST_FILE))
        status, _, errors = lash(path, "--write", self.folder / "sheet", output=answer_bytes(end, end))
        self.assertEqual((status, errors), (0, ""))
        self.assertEqual([tier.mass for tier in parse((self.folder / "sheet").read_bytes()).tiers], [20_000, 30_000])

    def test_bad_words(self):
        path = EXAMPLES / "box-b.toml"
        for words, message in (
            ((), "a stack is needed"),
            ((path, "--sheet", path), "either descriptions or --sheet"),
            ((path, "--colour"), "unrecognized arguments: --colour"),
            (("--colour",), "unrecognized arguments: --colour"),
            ((path, "--sv", "x"), "unrecognized arguments: --sv"),
            (("-", "-"), "standard input can be read only once"),
            ((self.folder,), f"no *.toml in the folder {self.folder}"),
            ((path, self.folder), f"no *.toml in the folder {self.folder}"),
            ((path, path, "--svg", "x"), "--write and --svg are for one stack"),
            ((EXAMPLES, "--write", "x"), "--write and --svg are for one stack"),
            ((path, "--svg", ""), "need a file's name"),
            ((path, "--write", ""), "need a file's name"),
            ((path, "--write", "-", "--svg", "-"), "standard output can be written only once"),
            ((path, "--svg", "-", "--json"), "standard output can be written only once"),
            ((path, "--template"), "--template goes alone"),
            (("--template", "--json"), "--template goes alone"),
        ):
            status, text, errors = lash(*words, output=B_ANSWER)
            self.assertEqual((status, text), (2, ""), words)
            self.assertIn("usage: lash", errors)
            self.assertIn(message, errors)

    def test_nothing_is_written_over(self):
        path = self.file("b.toml", (EXAMPLES / "box-b.toml").read_bytes())
        os.link(path, self.folder / "linked")
        (self.folder / "pointer").symlink_to(path)
        new = self.folder / "new"
        for words in (
            ("--svg", path), ("--write", path), ("--svg", self.folder / "linked"),
            ("--write", self.folder / "pointer"), ("--svg", new, "--write", new),
        ):
            status, text, errors = lash(path, *words, output=B_ANSWER)
            self.assertEqual((status, text), (2, ""), words)
            self.assertIn("would be written over", errors)
        self.assertEqual(path.read_bytes(), (EXAMPLES / "box-b.toml").read_bytes())
        self.assertFalse(new.exists())
        self.assertEqual(lash(path, "--svg", os.devnull, "--write", os.devnull, output=B_ANSWER)[0], 0)

    def test_outputs_to_standard_output(self):
        path = EXAMPLES / "box-b.toml"
        status, text, _ = lash(path, "--svg", "-", output=B_ANSWER)
        self.assertEqual(status, 0)
        self.assertTrue(text.startswith("<?xml") and text.endswith("</svg>\n"))
        self.assertEqual(ElementTree.fromstring(text).tag, "{http://www.w3.org/2000/svg}svg")
        self.assertEqual(lash(path, "--write", "-", output=B_ANSWER, binary=True)[1].hex(), BOX_B_HEX)

    def test_a_refusal_leaves_no_file(self):
        path = self.file("short.sheet", b"\x01\x02")
        for option in ("--write", "--svg"):
            self.assertEqual(lash("--sheet", path, option, self.folder / "left", output=b"1 2\n")[0], 2)
            self.assertFalse((self.folder / "left").exists())

    def test_version(self):
        header = (ROOT / "include" / "lash_check.h").read_text()
        numbers = re.findall(r"#define LASH_VERSION_(?:MAJOR|MINOR|PATCH) (\d+)", header)
        due = ".".join(numbers)
        self.assertEqual(len(numbers), 3)
        self.assertEqual(lash("--version"), (0, f"lash {due}\n", ""))
        status, text, _ = lash(EXAMPLES / "box-b.toml", "--json", output=B_ANSWER)
        self.assertEqual((status, json.loads(text)["version"]), (0, due))

    def test_files_that_cannot_be_written(self):
        for option in ("--svg", "--write"):
            for name in (self.folder, self.folder / "none" / "file"):
                status, text, errors = lash(EXAMPLES / "box-b.toml", option, name, output=B_ANSWER)
                self.assertEqual((status, text), (3, ""))
                self.assertIn(f"lash: {name}: cannot be written: ", errors)

    def test_a_check_that_writes_nonsense(self):
        wrong_verdict = bytes([1]) + B_ANSWER[1:]
        wrong_length = (B_ANSWER[:-1], B_ANSWER + b"\0")
        wrong_finding = answer_bytes(B_END, B_END, [(0, 1, 1)])
        wrong = (*wrong_length, wrong_verdict, wrong_finding, PULLED_BACK_ANSWER)
        for output in (b"", b"\0", b"hello", *wrong):
            status, text, errors = lash(EXAMPLES / "box-b.toml", output=output)
            self.assertEqual((status, text), (3, ""))
            self.assertIn(": the check wrote", errors)
        path = self.file("empty.sheet", b"")
        status, _, errors = lash("--sheet", path, output=B_ANSWER)
        self.assertEqual(status, 3)
        self.assertIn("the check took a sheet that is to be refused with 1 0", errors)


class Several(unittest.TestCase):
    """Many stacks in one call."""

    def setUp(self):
        folder = tempfile.TemporaryDirectory()
        self.addCleanup(folder.cleanup)
        self.folder = Path(folder.name)
        for name in ("box-b.toml", "pulled-back.toml"):
            (self.folder / name).write_bytes((EXAMPLES / name).read_bytes())
        (self.folder / "notes.txt").write_text("no stack")

    def lash(self, *words):
        """Answers by the sheet: six tiers get the figures of no real stack, one tier box B's."""
        return lash(*words, output=lambda data: PULLED_BACK_ANSWER if data[8] == 6 else B_ANSWER)

    def test_a_line_each(self):
        b, pulled = self.folder / "box-b.toml", self.folder / "pulled-back.toml"
        for words in ((b, pulled), (self.folder,)):
            status, text, errors = self.lash(*words)
            self.assertEqual((status, errors.count("\n")), (1, 1))
            self.assertTrue(errors.startswith(f"lash: {pulled}: warning: lash 2 "), errors)
            first, second, last = text.splitlines()
            self.assertRegex(first, rf"^{b} +ACCEPTED +14\.8%  racking, door end, tier 1$")
            # Of the figures over their limits the tension of 299,001 N at a corner is the farthest: 119.6004 % of 250,000 N.
            self.assertRegex(second, rf"^{pulled} +NOT ACCEPTED +119\.7%  corner tension, door end, level 3$")
            self.assertEqual(last, "2 stacks: 1 accepted, 1 not accepted")

    def test_a_rule_other_than_the_class_rule_is_named(self):
        b = self.folder / "box-b.toml"
        other = self.folder / "other.toml"
        other.write_text(b.read_text().replace("rule = 1", "rule = 2"))
        first, second, _ = self.lash(b, other)[1].splitlines()
        self.assertRegex(first, rf"^{b} +ACCEPTED +14\.8%  racking, door end, tier 1$")
        self.assertRegex(second, rf"^{other} +ACCEPTED +14\.8%  racking, door end, tier 1; rule 2 \(fleet standard\)$")

    def test_the_worst_status(self):
        b, none = self.folder / "box-b.toml", self.folder / "none.toml"
        status, text, _ = self.lash(b, none, self.folder / "pulled-back.toml", b)
        self.assertEqual(status, 2)
        self.assertRegex(text, rf"(?m)^{none} +NOT CHECKED +-  cannot be read: No such file or directory$")
        self.assertTrue(text.endswith("4 stacks: 2 accepted, 1 not accepted, 1 not checked\n"))
        self.assertEqual(self.lash(b, b)[0], 0)
        self.assertEqual(lash(b, none, output=b"nonsense")[0], 3)

    def test_json_lines(self):
        none = self.folder / "none.toml"
        status, text, _ = self.lash(self.folder, none, "--json")
        self.assertEqual(status, 2)
        found = [json.loads(line) for line in text.splitlines()]
        self.assertEqual([each["status"] for each in found], [0, 1, 2])
        self.assertEqual([each["source"] for each in found][2], str(none))
        self.assertEqual(found[0]["worst_use"]["used_percent"], 14.8)
        self.assertEqual(found[1]["worst_use"]["force"], 299_001)
        self.assertIn("cannot be read", found[2]["error"])

    def test_a_limit_of_nothing(self):
        """A breaking load of 1 N leaves a safe working load of 0: any force is above it, and none uses it up."""
        text = (EXAMPLES / "box-b.toml").read_text().replace("breaking_load = 500_000", "breaking_load = 1")
        self.assertIn("breaking_load = 1\n", text)
        (self.folder / "weak.toml").write_text(text)
        findings = [(0, 4, 0), (1, 4, 0)]
        end = ((22_073,), (98_892, 1), (1,))
        status, text, _ = lash(self.folder / "weak.toml", self.folder / "weak.toml", output=answer_bytes(end, end, findings))
        self.assertEqual(status, 1)
        self.assertIn("no limit left  lock tension, door end, level 0", text)


class Process(unittest.TestCase):
    """./lash itself, with a library that gives a fixed answer."""

    @classmethod
    def setUpClass(cls):
        folder = tempfile.TemporaryDirectory()
        cls.addClassCleanup(folder.cleanup)
        cls.library = library_of(Path(folder.name), B_ANSWER)

    def setUp(self):
        folder = tempfile.TemporaryDirectory()
        self.addCleanup(folder.cleanup)
        self.folder = Path(folder.name)
        (self.folder / "answer").write_bytes(B_ANSWER)

    def lash(self, *words, shell="", library=None):
        command = f'exec "$0" "$@" {shell}'
        words = [ROOT / "lash", *words, "--library", library or self.library]
        whole = ["sh", "-c", command, *words]
        done = subprocess.run(whole, capture_output=True, text=True, cwd=self.folder, env=BUFFERED)
        self.assertNotIn("Traceback", done.stderr)
        return done.returncode, done.stdout, done.stderr

    def test_accepted_from_any_folder(self):
        status, text, errors = self.lash(EXAMPLES / "box-b.toml")
        self.assertEqual((status, errors), (0, ""))
        self.assertTrue(text.endswith("ACCEPTED\n"))

    def test_outputs_that_cannot_be_written(self):
        self.assertEqual(self.lash(EXAMPLES / "box-b.toml", shell=">&-")[0], 0)
        status, _, errors = self.lash(EXAMPLES / "box-b.toml", shell="> /dev/full")
        self.assertEqual(status, 3)
        self.assertEqual(errors, "lash: the report cannot be written: No space left on device\n")

    def test_closed_and_full_streams(self):
        """Only a verdict ends in 0 or 1, and never a trace."""
        good, bad = EXAMPLES / "box-b.toml", "none.toml"
        for words, shell, due in (
            (("-",), "<&-", 2), (("--sheet", "-"), "<&-", 2), (("-",), "<&- 2>&-", 2),
            ((good,), "2>&-", 0), ((good,), "2> /dev/full", 0),
            ((bad,), "2>&-", 2), ((bad,), "2> /dev/full", 2), ((bad, "--json"), "2> /dev/full", 2),
            ((good,), "> /dev/full 2> /dev/full", 3), ((good,), "> /dev/full 2>&-", 3), ((good,), "<&- >&- 2>&-", 0),
            ((good, good), "> /dev/full", 3), ((good, "--svg", "-"), "> /dev/full", 3),
            (("--colour",), "2>&-", 2), (("--colour",), "2> /dev/full", 2), ((), "2> /dev/full", 2),
            (("--version",), "> /dev/full", 3), (("--help",), "> /dev/full", 3),
            ((good, "--svg", "/dev/full"), "", 3), ((good, "--write", "/dev/full"), "", 3),
        ):
            with self.subTest(words=words, shell=shell):
                status, _, errors = self.lash(*words, shell=shell)
                self.assertEqual(status, due, errors)
                self.assertLessEqual(errors.count("\n"), 1)

    def test_a_closed_stream_is_not_taken_for_a_file(self):
        """Messages do not go where a file was opened in place of a closed stream."""
        status, _, _ = self.lash(EXAMPLES / "box-b.toml", "--svg", "picture", shell="2>&- >&-")
        self.assertEqual(status, 0)
        self.assertTrue((self.folder / "picture").read_bytes().endswith(b"</svg>\n"))
        self.assertEqual(self.lash("none.toml", shell="2>&-")[1], "")

    def test_files_do_not_get_the_numbers_of_closed_streams(self):
        """What a command run later writes to its standard error must not end in a file of ours."""
        lines = ("import os, sys", f"sys.path.insert(0, {str(ROOT)!r})", "from lashtool.ending import guarded")
        opened = "sys.exit(guarded(lambda: os.open(os.devnull, os.O_RDONLY)))"
        for shell in ("<&-", ">&-", "2>&-", "<&- >&- 2>&-"):
            command = ["sh", "-c", f'exec "$0" "$@" {shell}', sys.executable, "-c", "\n".join((*lines, opened))]
            self.assertGreater(subprocess.run(command, env=BUFFERED).returncode, 2, shell)

    def python(self, *lines):
        """./lash run after these lines of Python."""
        script = ["import runpy, sys", *lines, f"sys.argv = ['lash', {str(EXAMPLES / 'box-b.toml')!r}, '--library', {str(self.library)!r}]"]
        script.append(f"sys.path.insert(0, {str(ROOT)!r})")
        script.append(f"runpy.run_path({str(ROOT / 'lash')!r}, run_name='__main__')")
        return subprocess.run([sys.executable, "-c", "\n".join(script)], capture_output=True, text=True, env=BUFFERED)

    def test_an_older_python(self):
        done = self.python("sys.modules['tomllib'] = None", "sys.version_info = (3, 10, 2, 'final', 0)")
        message = "lash: Python 3.11 or newer is needed; this is 3.10\n"
        self.assertEqual((done.returncode, done.stdout, done.stderr), (3, "", message))

    def test_a_fault_of_the_tool(self):
        done = self.python("import lashtool.report", "lashtool.report.table = lambda *words: 1 // 0")
        message = "lash: a fault of the tool itself, and no verdict: ZeroDivisionError: integer division or modulo by zero\n"
        self.assertEqual((done.returncode, done.stdout, done.stderr), (3, "", message))

    def test_a_reader_that_has_gone(self):
        words = [sys.executable, ROOT / "lash", EXAMPLES / "box-b.toml", "--library", self.library]
        reader, writer = os.pipe()
        os.close(reader)
        done = subprocess.run(words, stdout=writer, stderr=subprocess.PIPE, text=True, env=BUFFERED)
        os.close(writer)
        self.assertEqual((done.returncode, done.stderr), (0, ""))

    def test_bad_input(self):
        (self.folder / "deep.toml").write_text("x = " + "[" * 50_000)
        (self.folder / "digits.toml").write_text("route = " + "9" * 50_000)
        for name in ("none.toml", "answer", "deep.toml", "digits.toml", "/dev/zero", "", "\udcff"):
            status, text, errors = self.lash(name)
            self.assertEqual((status, text), (2, ""), name)
            self.assertTrue(errors.startswith("lash: "), errors)

    def test_libraries_that_fail(self):
        (self.folder / "text").write_bytes(b"no library" * 100)
        (self.folder / "other.so").write_bytes(Path(library_of(self.folder, B_ANSWER, name="another_call")).read_bytes())
        for name, message in (("none", "cannot open"), ("text", "invalid ELF header"), ("other.so", "lash_check")):
            status, text, errors = self.lash(EXAMPLES / "box-b.toml", library=self.folder / name)
            self.assertEqual((status, text), (3, ""))
            self.assertTrue(errors.startswith("lash: the library cannot be loaded: "), errors)
            self.assertIn(message, errors)
            self.assertEqual(errors.count("\n"), 1)

    def test_colours_on_a_terminal(self):
        """And none against NO_COLOR; in a file there are none either way."""
        words = [ROOT / "lash", EXAMPLES / "box-b.toml", "--library", self.library]
        for more, coloured in (({"TERM": "xterm"}, True), ({"TERM": "xterm", "NO_COLOR": "1"}, False)):
            reader, writer = os.openpty()
            environment = {name: value for name, value in BUFFERED.items() if name != "NO_COLOR"}
            process = subprocess.Popen(words, stdout=writer, env={**environment, **more})
            os.close(writer)
            text = b""
            with contextlib.suppress(OSError):  # a terminal whose other side has gone ends so
                while part := os.read(reader, 65_536):
                    text += part
            os.close(reader)
            self.assertEqual(process.wait(), 0)
            self.assertIn(b"ACCEPTED", text)
            self.assertEqual(b"\x1b[36m" in text, coloured)
        self.assertNotIn("\x1b", self.lash(EXAMPLES / "box-b.toml")[1])

    def test_help(self):
        status, text, _ = self.lash("--help")
        self.assertEqual(status, 0)
        self.assertIn("Exit status: 0 accepted, 1 not accepted, 2 refused", text)
        self.assertNotIn("--library", text)


if __name__ == "__main__":
    unittest.main()
