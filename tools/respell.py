#!/usr/bin/env python3
"""Brings the names of definitions and lemmas to one spelling: words in snake case, types and modules in camel case.

usage: tools/respell.py     at the top of the repository, once, after the kit's own script

It renames what specs/ and proofs/ declare: `sheetOf` to `sheet_of`, `one-le` to `one_le`, the folder specs/inner to specs/Inner. Names that
the code declares, names of the library, operators, and names that Rattle makes keep their spelling. Where a name would fall together with
another one of its file, it says so. The names stand in contracts, definitions, proofs, edits that must fail, and in the pages, there
between backquotes."""

import glob
import os
import re
import sys

TOKEN = re.compile(r"""[^\s(){}.;,@"«»\[\]`]+""")
DECLARED = re.compile(r"(?m)^[ \t]*(?:(?:pub|abbrev|unfoldable|opaque|pattern)\s+)*([^\s(){}.;,:@]+)[ \t]+:(?=\s)")
LET = re.compile(r"\blet\s+([^\s(){}.;,:@=]+)\s*[:=]")
USE = re.compile(r"(?m)^[ \t]*(?:pub |ghost |unfoldable )*use\s+([^\s{};]+?)(?:\.\{([^{}]*)\})?(?:\s+as\s+(\S+?))?;?[ \t]*$")
WORD = re.compile(r"[A-Za-z0-9_'₀-₉ℤℕℚ→≢-]+")
# names that would fall together with a definition's: a lemma's ends in _lem
APART = {"at_level": "each_level", "none_found": "none_found_lem", "written_as": "written_as_lem", "head_rows": "head_rows_lem"}


def snake(name):
    """A name in snake case: a dash and a capital inside it begin a word."""
    if not WORD.fullmatch(name) or len(name) == 1 or name[0].isupper() and not re.match(r"[A-Z]+(-|$)", name):
        return name
    if "→" in name or "≢" in name:
        return name
    if name in APART:
        return APART[name]
    words = re.sub(r"(?<=[a-z0-9])(?=[A-Z])", "_", name).replace("-", "_")
    words = re.sub(r"(?<=[A-Z])(?=[A-Z][a-z])", "_", words)
    return words.lower() if re.search(r"[A-Z]", words) else words


def files(pattern):
    return sorted(p for p in glob.glob(pattern, recursive=True) if "/out/" not in p and "/target/" not in p)


def read(path):
    with open(path, encoding="utf-8") as f:
        return f.read()


def without_comments(text):
    return re.sub(r"(?m)(?<![^\s(){}\[\],;])--.*$", "", text)


def of_the_code():
    """The names that the code declares: functions, parameters, locals, fields, types."""
    found = set()
    for p in files("crates/*/src/**/*.rt"):
        code = re.sub(r"(?m)//.*$|^\s*ghost use[^;]*;", "", read(p))
        code = re.sub(r"(?ms)^\s*(requires|ensures|ghost)\b.*?(?=^\{|\A\Z|;\s*$)", "", code)
        found |= set(re.findall(r"\b[A-Za-z_]\w*\b", code))
    return found


def is_proof(path):
    return os.path.basename(path) in ("Proof.antt", "Answers.antt", "Invariants.antt")


def declared(path):
    """The names that a file declares, and those that a proof of a function binds for itself."""
    text = without_comments(read(path))
    found = set(DECLARED.findall(text)) | set(LET.findall(text))
    found |= set(re.findall(r"(?m)^[ \t]*\|?[ \t]*pub ([a-z][^\s(){}.;,:@]*)[ \t]+:", text))
    if is_proof(path):
        goals = set(re.findall(r"(?m)^(?:(?:pub|abbrev)\s+)*([^\s(){}.;,:@]+)[ \t]+:[^\n]*\btie\.", text))
        goals |= set(re.findall(r"(?m)^pub (\S+-spec) :", text))
        found -= goals
    return found


def imported(text):
    """The names that a file takes from the library, and those that it takes from this repository's crates."""
    own, other = set(), set()
    for path, names, alias in USE.findall(text):
        taken = {n.split(" as ")[0].strip() for n in names.replace("\n", " ").split(",")} - {""}
        crate = path.split(".")[1] if path.startswith("Rattle.") and "." in path else ""
        (own if crate in CRATES else other).update(taken)
    return own, other


def turned(text, names):
    """The text with each name respelled, and the pairs that fell together in it."""
    return TOKEN.sub(lambda m: names.get(m[0], m[0]), text)


def code_parts(text):
    """The text of a source file in parts, each with whether it is antt: clauses and imports."""
    at = 0
    for m in re.finditer(r"(?ms)^\s*ghost use[^;]*;|^\s*(?:requires|ensures|ghost)\b.*?(?=^\s*\{\s*$|^\{|;[ \t]*$|^\s*(?:requires|ensures)\b|\Z)", text):
        yield text[at : m.start()], False
        yield m[0], True
        at = m.end()
    yield text[at:], False


def comment_aware(text, names, mark):
    """Respells a file's code, and in its comments what stands between backquotes or has a capital inside."""
    out = []
    for line in text.split("\n"):
        m = re.search(r"(?<![^\s(){}\[\],;])" + mark, line)
        cut = m.start() if m else len(line)
        code, comment = line[:cut], line[cut:]
        out.append(turned(code, names) + in_words(comment, names))
    return "\n".join(out)


def in_words(text, names):
    text = re.sub(r"`([^`\n]+)`", lambda m: "`" + turned(m[1], names) + "`", text)
    humps = {a: b for a, b in names.items() if re.search(r"[a-z][A-Z]", a)}
    return TOKEN.sub(lambda m: humps.get(m[0], m[0]), text)


CRATES = set(os.listdir("crates"))


def apart(shared):
    """Where two names of a file would be one, that of the lemma, with dashes, ends in _lem."""
    for p in files("crates/*/specs/**/*.antt") + files("crates/*/proofs/**/*.antt"):
        text = without_comments(read(p))
        ways, words = {}, set(TOKEN.findall(text))
        paths = set(re.findall(r"[.](\w+)[.]", text))
        for n in words & set(shared):
            ways.setdefault(snake(n), set()).add(n)
            if snake(n) in words and snake(n) not in paths:
                ways[snake(n)].add(snake(n))
        for s, both in ways.items():
            if len(both) > 1:
                for n in both:
                    if "-" in n:
                        APART[n] = shared[n] = s + "_lem"


def main():
    code = of_the_code()
    shared, local = {}, {}
    for p in files("crates/*/specs/**/*.antt") + files("crates/*/proofs/**/*.antt"):
        names = {n for n in declared(p) if snake(n) != n and n not in code}
        local[p] = names
        if not is_proof(p):
            for n in names:
                shared[n] = snake(n)
    shared.update({n: s for n, s in APART.items() if not n.endswith("_lem")})
    apart(shared)
    said = []
    for p in files("crates/*/specs/**/*.antt") + files("crates/*/proofs/**/*.antt") + files("crates/*/src/**/*.rt"):
        text = read(p)
        own, other = imported(text)
        names = {n: s for n, s in shared.items() if n not in other or n in own or n in local.get(p, ())}
        names.update({n: shared.get(n, snake(n)) for n in local.get(p, ())})
        before = set(TOKEN.findall(without_comments(text)))
        for n in sorted(before & set(names)):
            if names[n] in before and names.get(names[n], names[n]) == names[n]:
                said.append(f"{p}: {n} and {names[n]} fall together")
        if p.endswith(".antt"):
            new = comment_aware(text, names, "--")
        else:
            new = "".join(turned(t, names) if antt else re.sub(r"(?m)//.*$", lambda m: in_words(m[0], names), t) for t, antt in code_parts(text))
        new = new.replace(".specs.inner", ".specs.Inner")
        if os.path.dirname(p).endswith("/specs") and os.path.basename(p) == "Lib.antt":
            new = new.replace("mod inner", "mod Inner")
        if new != text:
            with open(p, "w", encoding="utf-8") as f:
                f.write(new)
    ways = {}
    for n, s in shared.items():
        ways.setdefault(s, set()).add(n)
    said += [f"{s} stands for {', '.join(sorted(v))}" for s, v in sorted(ways.items()) if len(v) > 1]
    pages(shared)
    edits(shared)
    for p in files("crates/*/specs/inner.antt"):
        os.rename(p, p[: -len("inner.antt")] + "Inner.antt")
    for p in files("crates/*/specs/inner"):
        os.rename(p, p[: -len("inner")] + "Inner")
    print("\n".join(said))


def pages(names):
    for p in files("*.md") + files("docs/*.md"):
        text = read(p)
        new = re.sub(r"`([^`\n]+)`", lambda m: "`" + turned(m[1], names) + "`", text).replace("specs/inner", "specs/Inner")
        if new != text:
            with open(p, "w", encoding="utf-8") as f:
                f.write(new)


HOLES = re.compile(r"(?<![\w'-])_([^\s_\w(){},.;]+)_(?![\w'-])")


def as_today(text):
    """An edit's line of antt as the kit's script spells it."""
    text = HOLES.sub(r"◌\1◌", text)
    text = re.sub(r"⌜ ?| ?⌝", "", text)
    text = re.sub(r"λ r\. ", "", text)
    text = re.sub(r"\(now \((\w+) \.entry\)\)", r"\1.now", text)
    text = re.sub(r"\(now \((\w+) \.exit\)\)", r"\1.new", text)
    text = re.sub(r"\(now (\w+)\)", r"\1.now", text)
    text = re.sub(r"(?<=[\w')]) \.(?=[A-Za-z0-9])", ".", text)
    text = re.sub(r"\((\w[\w']*(?:\.[\w-]+)+)\)", r"\1", text)
    for old, new in (("natAbs", "nat_abs"), ("negℤ", "neg_ℤ"), ("getD", "get_or"), ("shrZ", "shr_z"), ("flatMap", "flat_map"), ("leb", "nat_le"), ("toZ", "to_z"), ("ofZ", "of_z")):
        text = re.sub(rf"(?<![\w'-]){old}(?![\w'-])", new, text)
    return text


def edits(names):
    """Edits that must fail: the same texts in today's spelling, where that stands once in the file."""
    bad = []
    for p in files("crates/*/must-fail/*.edit"):
        lines, out, path = read(p).split("\n"), [], None
        crate = "/".join(p.split("/")[:2])
        text = ""
        pairs = []
        for line in lines:
            m = re.match(r"(file|old|new): ?(.*)$", line)
            if m and m[1] == "file":
                path = os.path.join(crate, m[2])
                text = read(path) if os.path.exists(path) else ""
                line = line.replace("specs/inner", "specs/Inner")
            elif m:
                body = m[2]
                if path.endswith(".antt"):
                    body = as_today(turned(as_today(body), names))
                elif re.search(r"ghost use|requires|ensures", body):
                    body = as_today(turned(as_today(body), names))
                line = f"{m[1]}: {body}"
                if m[1] == "old" and text.count(body) != 1 and not pairs:
                    bad.append(p)
                pairs.append(body)
            out.append(line)
        new = "\n".join(out)
        if new != read(p):
            with open(p, "w", encoding="utf-8") as f:
                f.write(new)
    print(f"{len(set(bad))} edits whose text does not stand once: " + " ".join(sorted(set(bad))))


if __name__ == "__main__":
    sys.exit(main())
