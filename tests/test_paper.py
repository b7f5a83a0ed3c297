"""docs/PAPER.md and docs/MARGIN.md: every file, definition and quoted line that they name stands where they say."""

import re
import tempfile
import unittest
from pathlib import Path

ROOT = Path(__file__).resolve().parent.parent
PAPER = ROOT / "docs" / "PAPER.md"
MARGIN = ROOT / "docs" / "MARGIN.md"
HEADINGS = [
    "What gets built",
    "The stack sheet",
    "When a sheet is turned back",
    "Loads on one end",
    "The springs",
    "Posts and locks",
    "Permissible loads",
    "The answer sheet",
    "Figures to hold it to",
    "Plausible slips",
    "Forms by place",
    "How closely it must be described",
    "02",
]
SPAN = re.compile(r"`([^`]+)`")
IS_PATH = re.compile(r"[\w.-]+(/[\w.-]+)+|[\w-]+\.txt")
ANTT = re.compile(r"\s*(?:(?:abbrev|unfoldable) (?:pub )?|pub (?:record |data )?)(?!record |data |mod )([^\s{(]+)(?=\s|$)")
PRIVATE_LAW = re.compile(r"\s*([^\s{(]+) :(?=\s|$)")
ITEM = {
    ".rt": re.compile(r"\s*(?:pub )?(?:extern \"C\" )?(?:fn|struct|enum|const) (\w+)"),
    ".py": re.compile(r"\s*(?:def|class) (\w+)"),
}


def lines_of(path):
    return path.read_text(encoding="utf-8").splitlines()


def indent(line):
    return len(line) - len(line.lstrip())


def members(lines, owner):
    """The fields of a record, or the cases of a type, of this name."""
    head = re.compile(rf"\s*pub (record|data) {re.escape(owner)}(?=\s|$)")
    found = set()
    for at, line in enumerate(lines):
        if not head.match(line):
            continue
        for inner in lines[at + 1:]:
            if inner.strip() and indent(inner) <= indent(line):
                break
            field = re.match(r"\s*(?:pub )?([^\s:-][^\s:]*) :(?=\s|$)", inner)
            if field:
                found.add(field[1])
    return found


def defined(path, name):
    """Whether the file has this definition, member R.f, or line that begins with the text."""
    lines = lines_of(path)
    if " " in name or name.endswith(":"):
        head = re.compile(re.escape(name) + r"(?!\w)")
        return any(head.match(line.strip().removeprefix("pub ")) or head.match(line.strip()) for line in lines)
    if path.suffix == ".antt" and "." in name:
        owner, field = name.split(".", 1)
        return field in members(lines, owner)
    if path.suffix == ".antt":
        kinds = [ANTT] + ([PRIVATE_LAW] if "proofs" in path.parts else [])
    else:
        kinds = [ITEM[path.suffix]] if path.suffix in ITEM else []
    return any(match and match[1] == name for kind in kinds for match in map(kind.match, lines))


def faults(text, root=ROOT):
    """What a page names that is not there, a sentence each. A name belongs to the file before it on its line."""
    found = []
    for number, line in enumerate(text.splitlines(), 1):
        path = None
        for span in SPAN.findall(line):
            if IS_PATH.fullmatch(span):
                path = root / span
                if not path.is_file():
                    found.append(f"line {number}: no file {span}")
                    path = None
            elif path is None:
                found.append(f"line {number}: {span} follows no file that is there")
            elif not defined(path, span):
                found.append(f"line {number}: {path.relative_to(root)} has no {span}")
    return found


def sections(text):
    """Heading to the rows of its tables, each a list of cells."""
    result, rows = {}, []
    for line in text.splitlines():
        if line.startswith("## "):
            rows = result.setdefault(line[3:], [])
        elif line.startswith("| ") or line.startswith("|-"):
            rows.append([cell.strip() for cell in line.strip("|").split(" | ")])
    return {heading: rows[2:] for heading, rows in result.items()}


def unnamed(text):
    """What a page of document 01 must name and does not: headings, refusals 1 to 13, kinds 1 to 7, figures (a) to (j)."""
    found = sections(text)
    missing = [f"heading {heading}" for heading in HEADINGS if heading not in found]
    if list(found) != HEADINGS:
        missing.append("the headings of document 01, in its order")

    def has(heading, start, name):
        rows = [row for row in found.get(heading, []) if row[0].startswith(start)]
        return any(re.search(name, span) for row in rows for span in SPAN.findall(row[-1]))

    missing += [f"refusal {k}" for k in range(1, 14) if not has(HEADINGS[2], f"{k}, ", rf"^row{k}$")]
    missing += [f"kind {k}" for k in range(1, 8) if not has(HEADINGS[7], f"{k} ", rf"^kind_code \w+ = {k}$")]
    missing += [f"figure ({c})" for c in "abcdefghij" if not has(HEADINGS[8], f"({c}) ", rf"^Table\.{c}(_\w+)?$")]
    missing += [f"demand {k}" for k in range(1, 6) if not any(row[0].startswith(f"{k}. ") for row in found.get(HEADINGS[11], []))]
    missing += [f"a row of {heading}" for heading in HEADINGS[:-1] if not found.get(heading)]
    missing += [
        f"a definition for: {row[0]}" for rows in found.values() for row in rows if len(row) != 2 or not SPAN.search(row[1])
    ]
    return missing


class Pages(unittest.TestCase):
    def test_paper_names_what_is_there(self):
        self.assertEqual(faults(PAPER.read_text(encoding="utf-8")), [])

    def test_paper_is_whole(self):
        self.assertEqual(unnamed(PAPER.read_text(encoding="utf-8")), [])

    def test_margin_names_what_is_there(self):
        self.assertEqual(faults(MARGIN.read_text(encoding="utf-8")), [])

    def test_margin_is_whole(self):
        text = MARGIN.read_text(encoding="utf-8")
        rows = [row for section in sections(text).values() for row in section]
        self.assertGreater(len(rows), 20)
        self.assertEqual([row[0] for row in rows if len(row) != 3 or not SPAN.search(row[2])], [])
        pads = ("racking_pad = 15729", "lash_pad = 13365", "along_pad = 21176", "post_pad = 893912")
        for line in ("kept = 9", "error_hundredths = 5", *pads):
            self.assertIn(f"`{line}`", text)


class Reading(unittest.TestCase):
    """That these checks can fail."""

    SPEC = "-- gone : a comment\nabbrev pub weight : N\nweight t = 981\npub record Row : Type 0 where\n  pub second : N\n"
    SPEC += "module _ where\n  unfoldable pub tension : N\npub data Kind : Type 0 where\n  racking : Kind\nhidden : N\n"
    CODE = "// fn gone\npub extern \"C\" fn call(\nconst PAD: u64 = 13365;\n"

    def check(self, expected, text):
        with tempfile.TemporaryDirectory() as folder:
            (Path(folder) / "a").mkdir()
            (Path(folder) / "a" / "S.antt").write_text(self.SPEC, encoding="utf-8")
            (Path(folder) / "a" / "c.rt").write_text(self.CODE, encoding="utf-8")
            self.assertEqual(len(faults(text, Path(folder))), expected, text)

    def test_names_that_stand(self):
        self.check(0, "`a/S.antt` `weight` `Row` `Row.second` `tension` `Kind.racking` `weight t = 981`")
        self.check(0, "`a/c.rt` `call` `PAD` `const PAD: u64 = 13365`; `a/S.antt` `weight`")

    def test_names_that_are_gone(self):
        for name in ("gone", "weigh", "hidden", "Row.racking", "Kind.second", "weight t = 98", "t", "where", "record"):
            self.check(1, f"`a/S.antt` `{name}`")
        for name in ("gone", "cal", "const PAD: u64 = 1336", "weight"):
            self.check(1, f"`a/c.rt` `{name}`")
        self.check(2, "`a/T.antt` `weight`")
        self.check(1, "`weight`")

    def test_a_page_without_content(self):
        self.assertGreater(len(unnamed("")), 40)

    def test_a_page_without_one_row(self):
        text = PAPER.read_text(encoding="utf-8")
        gone = {"| 7, offset": "refusal 7", "| 4 tension over": "kind 4", "| (e) ": "figure (e)", "## The springs": "The springs"}
        for start, name in gone.items():
            rest = "\n".join(line for line in text.splitlines() if not line.startswith(start))
            self.assertTrue(any(name in fault for fault in unnamed(rest)), name)

    def test_a_name_of_the_paper_changed(self):
        text = PAPER.read_text(encoding="utf-8")
        for old, new in (("`row7`", "`row14`"), ("`Table.e_shift`", "`Table.e_shifts`"), ("finding_count.edit", "findings_count.edit")):
            self.assertIn(old, text)
            self.assertNotEqual(faults(text.replace(old, new)), [], old)


if __name__ == "__main__":
    unittest.main()
