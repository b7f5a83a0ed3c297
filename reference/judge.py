"""Holds what a program wrote for a sheet to what must come out: refusals, bytes, figures, findings."""

from dataclasses import dataclass, field
from re import fullmatch

from reference.stack import exact
from sheets.answer import BadAnswer, counts, counts_due, read_answer
from sheets.limits import findings
from sheets.sheet import Refused, parse

# A reported force is at least the exact one in size and less than a margin above it, N; from the margin on a racking's sign is
# the exact one's. Document 01 demands the first margin; the check keeps the second.
MARGIN = 100
KEPT = 9

END_NAMES = ("door", "closed")


@dataclass(frozen=True)
class Expected:
    """What must come out of a sheet: a refusal, or answers within reach of the exact forces."""

    refusal: tuple = None  # (number, second number)
    sheet: object = None
    ends: tuple = None  # exact forces


@dataclass
class Judgement:
    faults: list = field(default_factory=list)
    distances: dict = field(default_factory=dict)  # kind of force: largest distance above the exact, rounded
    verdict: int = None  # of a taken sheet


def expected(data):
    try:
        sheet = parse(data)
    except Refused as refused:
        return Expected(refusal=(refused.number, refused.second))
    return Expected(sheet=sheet, ends=exact(sheet))


def judge(due, output, margin=KEPT):
    """Every fault of a program's output, and how far its forces lie above the exact ones."""
    judgement = Judgement()
    if due.refusal:
        text = b"%d %d\n" % due.refusal
        if output != text:
            judgement.faults.append(f"refusal: {output[:40]!r}, {text!r} is due")
        return judgement
    if fullmatch(rb"\d+ \d+\n", output):
        judgement.faults.append(f"refusal: {output!r} for a sheet that is taken")
        return judgement
    try:
        answer = read_answer(output)
    except BadAnswer as reason:
        judgement.faults.append(f"answer: {reason}")
        return judgement
    judgement.verdict = answer.verdict
    judgement.faults += layout_faults(due.sheet, answer, len(output))
    if not judgement.faults:
        judge_figures(due, answer, judgement, margin)
        judgement.faults += finding_faults(due.sheet, answer)
    return judgement


def layout_faults(sheet, answer, length):
    faults = []
    for end, name in enumerate(END_NAMES):
        found, due = counts(answer.ends[end]), counts_due(sheet, end)
        if found != due:
            faults.append(f"layout: {name} end has counts {found}, {due} are due")
    if answer.length != length:
        faults.append(f"layout: {length - answer.length} bytes after the answer")
    return faults


def forces(end):
    """(kind of force, its place's word, index, force) of one end."""
    yield from (("racking", "tier", tier, force) for tier, force in enumerate(end.racking, 1))
    yield from (("compression", "level", level, force) for level, force in enumerate(end.compression))
    yield from (("tension", "level", level, force) for level, force in enumerate(end.tension))
    for index, lash in enumerate(end.lashes):
        yield "lash tension", "lash", index, lash.tension
        yield "lash athwart", "lash", index, lash.athwart
        yield "lash vertical", "lash", index, lash.vertical


def figures(end):
    """(kind of force, where, force) of one end."""
    return ((kind, f"{word} {index}", force) for kind, word, index, force in forces(end))


def judge_figures(due, answer, judgement, margin=KEPT):
    for name, exact_end, end in zip(END_NAMES, due.ends, answer.ends):
        for (kind, word, index, force), (_, _, _, reported) in zip(forces(exact_end), forces(end)):
            fault = figure_fault(kind, force, reported, margin)
            if fault:
                where = f"{name} end, {kind}, {word} {index}"
                judgement.faults.append(f"{fault}: {where}: {reported}, exact {float(force):.6f}")
            distance = (abs(reported) * force.denominator - abs(force.numerator)) / force.denominator
            judgement.distances[kind] = max(distance, judgement.distances.get(kind, distance))


def figure_fault(kind, force, reported, margin):
    """What is wrong with a reported force; fractions are compared by cross products."""
    top, bottom = force.numerator, force.denominator
    above = abs(reported) * bottom - abs(top)
    if above < 0:
        return "below the exact force"
    for most in (MARGIN, margin):
        if above >= most * bottom:
            return f"{most} N or more above the exact force"
    if kind == "racking" and abs(top) >= margin * bottom and (reported > 0) != (top > 0):
        return "wrong sign"
    return None


def finding_faults(sheet, answer):
    """Findings and verdict are what the rule gives from the reported figures."""
    faults = []
    due = findings(sheet, answer.ends)
    if answer.findings != due:
        faults.append(f"findings: {answer.findings}, {due} are due")
    if answer.verdict != (1 if answer.findings else 0):
        faults.append(f"verdict: {answer.verdict} with {len(answer.findings)} findings")
    return faults
