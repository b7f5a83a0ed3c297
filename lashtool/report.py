"""The printout: the verdict, what decides it, what was checked and every figure beside its limit."""

from dataclasses import dataclass
from textwrap import wrap

from lashtool.colour import bar, painted
from lashtool.fields import ENDS, LASH_FIELDS, TIER_FIELDS, lash_place, word
from lashtool.figures import CALM, LASH_KINDS, OVER, greatest
from lashtool.geometry import foot_height, lash_length
from lashtool.words import (
    FORECAST_WORDS, KIND_WORDS, ONE_PULL_WORDS, PAD_WORDS, assumed_words, ends_words, force_words, lock_words, motion_words,
    not_checked, route_words, rule_notes, stack_words, stiffness_words, verdict_words, warnings, way_words, where, worst_words,
)
from sheets.limits import (
    COMPRESSION, COMPRESSION_LIMIT, CORNER, CORNER_LIMIT, LASH_ATHWART_LIMIT, LASH_VERTICAL_LIMIT, LOCK, RACKING,
    RACKING_LIMIT,
)

WIDTH = 110


@dataclass(frozen=True)
class Cell:
    """A text of a figure, coloured by how much of its limit the figure uses."""

    text: str
    state: str


def table(outcome, colour=False):
    """The whole report."""
    sections = [
        summary(outcome, colour),
        findings(outcome),
        bulleted("WARNINGS", warnings(outcome)),
        checked(outcome),
        *(end_lines(outcome, end, colour) for end in range(len(ENDS))),
        notes(outcome),
        [painted(verdict_words(outcome), verdict_state(outcome), colour)],
    ]
    return "\n\n".join("\n".join(lines) for lines in sections if lines)


def verdict_state(outcome):
    return CALM if outcome.accepted else OVER


def summary(outcome, colour):
    worst = outcome.worst()
    return [
        *([outcome.title] if outcome.title else []),
        painted(verdict_words(outcome), verdict_state(outcome), colour),
        f"worst use of a limit: {painted(bar(worst), worst.state, colour)} {worst_words(outcome)}",
    ]


def findings(outcome):
    """The findings by kind, each where it stands."""
    lines = []
    for kind, name in KIND_WORDS.items():
        found = [figure for figure in outcome.findings() if figure.kind == kind]
        if found:
            lines.append(f"  {name}")
        for figure in found:
            share = f"{figure.used_text} of {figure.limit:,} N" if figure.limit else "nothing is allowed"
            lines.append(f"    {where(outcome, figure)}: {force_words(figure)}, {share}")
    return ["FINDINGS", *lines] if lines else []


def bulleted(title, texts):
    lines = [line for text in texts for line in folded(text)]
    return [title, *lines] if lines else []


def folded(text):
    """A sentence in lines of the page's width."""
    return wrap(text, WIDTH, initial_indent="  ", subsequent_indent="    ")


def checked(outcome):
    """What was checked, as the check read it."""
    sheet = outcome.sheet
    words = (
        stack_words(sheet), route_words(sheet.head, outcome.forecast), lock_words(sheet.head), stiffness_words(sheet),
        motion_words(outcome), assumed_words(outcome),
    )
    return [
        *bulleted("CHECKED", [line for line in words if line]),
        "",
        *aligned(tier_rows(sheet), {0, 3}),
        "",
        *(aligned(lash_rows(outcome), {0, 1, 2, 9}) if outcome.listed() else ["  no lashes"]),
    ]


def tier_rows(sheet):
    yield ("tier", "height, mm", "mass, kg", "wind", "A_T, g", "A_Vmax, g", "A_Vmin, g")
    for number, tier in enumerate(sheet.tiers, 1):
        accelerations = (f"{value / 1000:.3f}" for value in (tier.a_t, tier.a_vmax, tier.a_vmin))
        wind = word(TIER_FIELDS, tier, "exposed")
        yield (f"{number} turned" if tier.turned else str(number), f"{tier.height:,}", f"{tier.mass:,}", wind, *accelerations)


def lash_rows(outcome):
    yield ("lash", "end", "hooked at", "LX", "LY", "LZ", "length", "foot at", "area", "material", "modulus", "breaks at")
    yield ("", "", "", "mm", "mm", "mm", "mm", "mm", "mm2", "", "N/mm2", "N")
    for row in outcome.listed():
        lash = row.lash
        sides = (lash.lx, lash.ly, lash.lz, lash_length(lash), foot_height(outcome.sheet, lash), lash.area)
        yield (
            str(row.number), ends_words(row.ends), lash_place(lash), *(f"{side:,}" for side in sides),
            word(LASH_FIELDS, lash, "material"), f"{lash.modulus:,}", f"{lash.breaking:,}",
        )


def aligned(rows, left, colour=False):
    """Rows of cells as lines in columns; those in `left` begin at their left edge."""
    rows = [[cell if isinstance(cell, Cell) else Cell(cell, None) for cell in row] for row in rows]
    widths = [max(len(row[i].text) for row in rows if i < len(row)) for i in range(max(map(len, rows)))]
    for row in rows:
        cells = [
            shown(cell, f"{cell.text:{'<' if i in left else '>'}{widths[i]}}", colour) for i, cell in enumerate(row)
        ]
        yield f"  {'  '.join(cells)}".rstrip()


def shown(cell, text, colour):
    return painted(text, cell.state, colour and bool(text.strip())) if cell.state else text


# The figures of an end


def end_lines(outcome, end, colour):
    return [
        f"{ENDS[end].upper()} END",
        *aligned(racking_rows(outcome, end), {0, 3}, colour),
        "",
        *aligned(level_rows(outcome, end), {0, 6}, colour),
        "",
        *aligned(force_rows(outcome, end), {0, 1, 9}, colour),
    ]


def used(figure):
    return Cell(f"{figure.used_text}{' !' if figure.over else '  '}", figure.state)


def bar_cell(figure):
    return Cell(bar(figure), figure.state)


def limit(number):
    return f"{number:,}"


def racking_rows(outcome, end):
    yield ("tier", "racking, N", "used  ")
    yield ("limit", limit(RACKING_LIMIT), "")
    for tier in range(1, len(outcome.sheet.tiers) + 1):
        figure = outcome.figure(end, RACKING, tier)
        way = way_words(figure) if figure.force < 0 else ""
        yield (str(tier), figure.force_text, used(figure), Cell(bar(figure) + way, figure.state))


def level_rows(outcome, end):
    lock = outcome.figure(end, LOCK, 0)
    yield ("level", "compr., N", "used  ", "tension, N", "of corner  ", "of lock  ")
    yield ("limit", limit(COMPRESSION_LIMIT), "", "", f"{limit(CORNER_LIMIT)}  ", f"{limit(lock.limit)}  ")
    for level in range(len(outcome.sheet.tiers) + 1):
        figures = [outcome.figure(end, COMPRESSION, level)]
        cells = [str(level), figures[0].force_text, used(figures[0])]
        if level < len(outcome.sheet.tiers):
            figures += [outcome.figure(end, kind, level) for kind in (CORNER, LOCK)]
            cells += [figures[1].force_text, *map(used, figures[1:])]
        else:
            cells += ["", "", ""]
        yield (*cells, bar_cell(greatest(figures)))


def force_rows(outcome, end):
    if not outcome.sheet.lashes(end):
        yield ("no lashes",)
        return
    yield ("lash", "", "tension, N", "safe load", "used  ", "vertical, N", "used  ", "athwart, N", "used  ")
    yield ("limit", "", "", "", "", limit(LASH_VERTICAL_LIMIT), "", limit(LASH_ATHWART_LIMIT), "")
    for index in outcome.order(end):
        lash = outcome.lash(end, index)
        figures = [outcome.figure(end, kind, index) for kind in LASH_KINDS]
        tension, *parts = ((figure.force_text, used(figure)) for figure in figures)
        safe = limit(figures[0].limit)
        yield (
            str(outcome.number(end, index)), lash_place(lash), tension[0], safe, tension[1],
            *(cell for pair in parts for cell in pair), bar_cell(outcome.governing(end, index)),
        )


def notes(outcome):
    """How to read the figures."""
    texts = [
        *rule_notes(outcome.sheet.head),
        *([FORECAST_WORDS] if outcome.forecast else []),
        "Forces in N. Level 0 is the deck, level i the top of tier i; compression on the deck is reported only. "
        "Racking is to leeward unless marked.",
        "used: share of the limit, rounded up to a tenth of a percent; the bar is of the row's greatest: "
        "= calm, # from 80%, ! over the limit.",
    ]
    if outcome.listed():
        texts.append("foot at: height of a lash's lower end above the deck.")
        texts.append("tension: the lashes above the level count, and at it those on bottom corners; in compression all at it do.")
    if outcome.over_both():
        texts.append(ONE_PULL_WORDS)
    if any(figure.force_text.startswith("<") for figure in outcome.figures.values()):
        texts.append(PAD_WORDS)
    return bulleted("NOTES", [*texts, not_checked(outcome)])
