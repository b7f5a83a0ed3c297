#!/usr/bin/env python3
"""Prints the exact forces of a stack sheet, or why it is turned back.

Exit status 0: no exact force exceeds its limit; 1: some do; 2: refused, or no sheet to read.
"""

import argparse
import sys
from pathlib import Path

sys.path.insert(0, str(Path(__file__).resolve().parent.parent))

from reference.script import finish
from reference.stack import exact
from sheets.limits import checks
from sheets.sheet import Refused, parse

END_NAMES = ("door", "closed")
KIND_NAMES = {
    1: "racking of tier",
    2: "compression at level",
    3: "corner tension at level",
    4: "lock tension at level",
    5: "tension of lash",
    6: "vertical part of lash",
    7: "athwart part of lash",
}


def shown(force, fractions):
    return str(force) if fractions else f"{float(force):,.3f}"


def rows(sheet, ends, fractions):
    """The table's rows: end, force, where, value."""
    for name, end, lashes in zip(END_NAMES, ends, (sheet.door, sheet.closed)):
        for tier, force in enumerate(end.racking, 1):
            yield name, "racking", f"tier {tier}", shown(force, fractions)
        for level, force in enumerate(end.compression):
            yield name, "compression", f"level {level}", shown(force, fractions)
        for level, force in enumerate(end.tension):
            yield name, "tension", f"level {level}", shown(force, fractions)
        for index, (lash, forces) in enumerate(zip(lashes, end.lashes)):
            for part in ("tension", "athwart", "vertical"):
                value = shown(getattr(forces, part), fractions)
                yield name, f"lash {part}", f"lash {index} (level {lash.level})", value


def report(sheet, fractions):
    """The lines to print and the number of limits exceeded."""
    ends = exact(sheet)
    lines = [f"{'end':8}{'force':16}{'at':18}{'exact, N':>18}"]
    lines += [f"{a:8}{b:16}{c:18}{d:>18}" for a, b, c, d in rows(sheet, ends, fractions)]
    over = [check for check in checks(sheet, ends) if check.size > check.limit]
    for check in over:
        where = f"{END_NAMES[check.end]} end, {KIND_NAMES[check.kind]} {check.index}"
        lines.append(f"over its limit of {check.limit:,} N: {where}")
    if not over:
        lines.append("no exact force exceeds its limit")
    return lines, len(over)


def main():
    parser = argparse.ArgumentParser(description=__doc__.splitlines()[0])
    parser.add_argument("sheet", help="file with the sheet's bytes, - for standard input")
    parser.add_argument("--fractions", action="store_true", help="print forces as whole fractions")
    options = parser.parse_args()
    try:
        data = sys.stdin.buffer.read() if options.sheet == "-" else Path(options.sheet).read_bytes()
        sheet = parse(data)
    except OSError as error:
        print(f"{options.sheet}: {error.strerror}", file=sys.stderr)
        return 2
    except Refused as refused:
        print(refused)
        return 2
    lines, over = report(sheet, options.fractions)
    print("\n".join(lines))
    return 1 if over else 0


if __name__ == "__main__":
    finish(main)
