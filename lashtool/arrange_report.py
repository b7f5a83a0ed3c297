"""The choices of the lashes aboard in words and as JSON: the accepted ones, fewest lashes first, with each one's worst use of a limit."""

from itertools import groupby

from lashtool.colour import painted
from lashtool.data import lash_data, placed_data, stack_data
from lashtool.fields import lash_place
from lashtool.figures import CALM, OVER
from lashtool.report import aligned, bar_cell, bulleted, checked, used
from lashtool.words import KIND_WORDS, not_checked, rule_notes, warnings, where, worst_words

NOTES = (
    "Each lash of a choice is used at both ends. Listed is every choice of the gear that the check accepts, and no other; the empty choice "
    "counts. Fewest lashes come first; of two choices of as many lashes, at the first lash where they differ, the one that uses it.",
    "used: the choice's worst use of a limit, rounded up to a tenth of a percent; = calm, # from 80%. A choice with more lashes need not "
    "use less: a stiffer stack loads its lashes and posts otherwise.",
    "Every choice is of these lashes as they are described, at these corners. For the figures of one, leave the others out and check it.",
)
NO_LASH = "no lash"


def verdict_words(found):
    if not found.gear.lashes:
        return "ACCEPTED: NO LASH IS ABOARD, AND NONE IS NEEDED" if found.accepted else "NOT ACCEPTED, AND NO LASH IS ABOARD"
    return f"{len(found.accepted) or 'NONE'} OF {len(found.choices)} CHOICES ACCEPTED"


def lash_words(choice):
    """The lashes of a choice by tier, corner and kind; those of a tier together."""
    words = []
    for tier, lashes in groupby(choice.lashes, key=lambda lash: lash.tier):
        words.append(f"tier {tier} {', '.join(lash_place(lash).removeprefix(f'tier {tier} ') for lash in lashes)}")
    return "; ".join(words) or NO_LASH


def fewest_words(found):
    """What the fewest lashes are that hold the stack, or how close the best choice comes."""
    if not found.accepted:
        best = found.closest
        return f"closest: {lash_words(best)}, with {worst_words(best.result)}"
    fewest = found.accepted[0]
    least = min(found.accepted, key=lambda each: each.result.worst().share)
    words = f"fewest lashes: {len(fewest.lashes)} of {len(found.gear.lashes)} aboard"
    return f"{words}; lowest use of a limit: {least.result.worst().used_text}, with {lash_words(least)}"


def rows(choices):
    yield ("lashes", "numbers", "used  ", "", "worst use", "which")
    for each in choices:
        worst = each.result.worst()
        use = f"{KIND_WORDS[worst.kind]}, {where(each.result, worst)}"
        yield (str(len(each.lashes)), ", ".join(map(str, sorted(each.numbers))) or "-", used(worst), bar_cell(worst), use, lash_words(each))


def choice_lines(found, most, colour):
    if not found.accepted:
        return []
    lines = ["ACCEPTED CHOICES, fewest lashes first", *aligned(rows(found.accepted[:most]), {1, 3, 4, 5}, colour)]
    left = len(found.accepted) - most
    return [*lines, f"  and {left} more; --most {len(found.accepted)} prints them all"] if left > 0 else lines


def table(found, most, colour=False):
    """The whole report."""
    whole, verdict = found.whole.result, painted(verdict_words(found), CALM if found.accepted else OVER, colour)
    sections = (
        [*([found.gear.title] if found.gear.title else []), verdict, *bulleted("", [fewest_words(found)])[1:]],
        choice_lines(found, most, colour),
        bulleted("WARNINGS", warnings(whole)),
        checked(whole),
        bulleted("NOTES", [*rule_notes(whole.sheet.head), *NOTES, not_checked(whole)]),
        [verdict],
    )
    return "\n\n".join("\n".join(lines) for lines in sections if lines)


def as_data(found):
    """For JSON."""
    whole = found.whole.result
    stack = stack_data(whole)
    del stack["lashes"]
    return {
        "title": found.gear.title,
        "choices": len(found.choices),
        "accepted": len(found.accepted),
        "list": [choice_data(each) for each in found.accepted],
        "closest": choice_data(found.closest),
        "warnings": warnings(whole),
        "assumed": whole.assumed,
        "stack": stack,
        "gear": [lash_data(whole.sheet, row) for row in whole.listed()],
    }


def choice_data(each):
    worst = each.result.worst()
    text = worst_words(each.result)
    return {"choice": each.choice, "lashes": sorted(each.numbers), "worst_use": {**placed_data(each.result, worst), "text": text}}
