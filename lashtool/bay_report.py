"""A bay in print and as data: its verdict, a line a row, findings by row, and where the wind differs from what was described."""

from itertools import groupby

from lashtool.colour import bar, painted
from lashtool.data import as_data as stack_data
from lashtool.data import placed_data
from lashtool.fields import FLEET_STANDARD
from lashtool.figures import CALM, OVER, greatest
from lashtool.report import Cell, aligned, bulleted
from lashtool.words import FLEET_WORDS, KIND_WORDS, counted, force_words, warnings, where
from sheets.limits import RACKING, RACKING_LIMIT

WIND_WORDS = (
    "exposed: the tiers that the wind reaches, worked out from the neighbours (CR 1.3.1(40)) and taken in place of what a stack's own "
    "description says. A box is exposed if on either side more than a third of its height shows above the nearest loaded row; fully, "
    "if three or more empty rows lie between or no loaded row is beyond, and a 40-ft box beside a row of 20-ft boxes. All rows start at "
    "the same height."
)
READ_WORDS = (
    "used: the row's greatest share of a limit, rounded up to a tenth of a percent: = calm, # from 80%, ! over the limit. Level 0 is "
    "the deck, level i the top of tier i. Mass and racking are of all loaded rows, accepted or not. `--row N` prints all figures of a row."
)
NOT_CHECKED = (
    "Not covered: the ship's motion but for what a description gives, longitudinal forces and side walls, cell guides, buttresses, blocks "
    "of joined stacks, vertical lashings, mixed lengths in a row. No class society has certified this program."
)


def table(bay, colour=False):
    """The whole report."""
    sections = [
        summary(bay, colour),
        ["ROWS, port to starboard", *aligned(row_rows(bay), {0, 1, 5, 6, 8, 9}, colour)],
        findings(bay),
        bulleted("WIND", [words for row in bay.loaded for words in wind_words(row)]),
        bulleted("WARNINGS", [f"{row.row}: {words}" for row in bay.loaded for words in warnings(row.result)]),
        bulleted("NOTES", notes(bay)),
        [painted(verdict_words(bay), verdict_state(bay), colour)],
    ]
    return "\n\n".join("\n".join(lines) for lines in sections if lines)


def verdict_state(bay):
    return OVER if bay.not_accepted else CALM


def verdict_words(bay):
    if not bay.loaded:
        return "ACCEPTED: no row is loaded"
    if not bay.not_accepted:
        return f"ACCEPTED: {counted(len(bay.loaded), 'loaded row')}"
    found = sum(len(row.result.answer.findings) for row in bay.not_accepted)
    return f"NOT ACCEPTED: {len(bay.not_accepted)} of {counted(len(bay.loaded), 'loaded row')}, {counted(found, 'finding')}"


def summary(bay, colour):
    lines = [*([bay.title] if bay.title else []), painted(verdict_words(bay), verdict_state(bay), colour)]
    if bay.loaded:
        row, worst = worst_row(bay)
        words = f"{worst.used_text} in row {row.number}, {use_words(row, worst)}"
        lines.append(f"worst use of a limit: {painted(bar(worst), worst.state, colour)} {words}")
        lines.append(f"greatest racking {racking_words(bay)}; total mass {bay.mass:,} kg; accepted {bay.accepted} of {len(bay.loaded)}")
    return lines


def worst_row(bay):
    """The row with the worst use of a limit, and that figure."""
    worst = greatest(row.result.worst() for row in bay.loaded)
    return next(row for row in bay.loaded if row.result.worst() is worst), worst


def use_words(row, figure):
    return f"{KIND_WORDS[figure.kind]}, {where(row.result, figure)}"


def rackings(bay):
    """(row, figure) of every racking."""
    return [(row, figure) for row in bay.loaded for figure in row.result.figures.values() if figure.kind == RACKING]


def greatest_racking(bay):
    """The row and figure of the greatest racking in size, the first of equal ones."""
    return max(rackings(bay), key=lambda found: abs(found[1].force))


def racking_words(bay):
    row, figure = greatest_racking(bay)
    return f"{force_words(figure)} of {RACKING_LIMIT:,} N (row {row.number}, {where(row.result, figure)})"


# Rows


def row_rows(bay):
    yield ("row", "stack", "boxes", "height, mm", "mass, kg", "exposed", "verdict", "used  ", "", "where")
    for number, row in enumerate(bay.rows, 1):
        yield row_cells(row) if row else (str(number), "empty")


def row_cells(row):
    sheet, worst = row.result.sheet, row.result.worst()
    height, mass = (sum(getattr(tier, name) for tier in sheet.tiers) for name in ("height", "mass"))
    verdict = Cell("accepted", CALM) if row.result.accepted else Cell("NOT ACCEPTED", OVER)
    used = Cell(f"{worst.used_text}{' !' if worst.over else '  '}", worst.state)
    return (
        str(row.number), row.row.name or row.result.title[:30] or "-", f"{len(sheet.tiers)} x {sheet.tiers[0].size} ft", f"{height:,}",
        f"{mass:,}", exposed_words(row), verdict, used, Cell(bar(worst), worst.state), use_words(row, worst),
    )


def exposed_tiers(row):
    return [number for number, tier in enumerate(row.result.sheet.tiers, 1) if tier.exposed]


def exposed_words(row):
    return tiers_words(exposed_tiers(row)) or "none"


def tiers_words(numbers):
    """Numbers of tiers, those in a row together."""
    runs = [[number for _, number in run] for _, run in groupby(enumerate(numbers), key=lambda pair: pair[1] - pair[0])]
    return ", ".join(str(run[0]) if len(run) == 1 else f"{run[0]} to {run[-1]}" for run in runs)


def wind_differs(row):
    """(the wind given, the tiers that have the other one in this bay) of a row whose description gives a wind."""
    for given, words in ((True, "exposed"), (False, "sheltered")):
        pairs = enumerate(zip(row.row.winds, row.result.sheet.tiers), 1)
        tiers = [number for number, (wind, tier) in pairs if wind is given and tier.exposed is not given]
        if tiers:
            yield words, tiers


def wind_words(row):
    other = {"exposed": "sheltered", "sheltered": "exposed"}
    for given, tiers in wind_differs(row):
        many = "tiers" if tiers[1:] else "tier"
        yield f"{row.row}: described as {given}, {other[given]} in this bay, which counts: {many} {tiers_words(tiers)}"


def findings(bay):
    """The findings by row, each where it stands."""
    lines = []
    for row in bay.not_accepted:
        lines.append(f"  {row.row}")
        for figure in row.result.findings():
            share = f"{figure.used_text} of {figure.limit:,} N" if figure.limit else "nothing is allowed"
            lines.append(f"    {use_words(row, figure)}: {force_words(figure)}, {share}")
    return ["FINDINGS", *lines] if lines else []


def notes(bay):
    if not bay.loaded:
        return [NOT_CHECKED]
    standard = [f"{row.row}" for row in bay.loaded if row.result.sheet.head.rule == FLEET_STANDARD]
    rule = [f"By rule 2: {', '.join(standard)}. {FLEET_WORDS}"] if standard else []
    return [WIND_WORDS, READ_WORDS, *rule, NOT_CHECKED]


# JSON


def as_data(bay):
    data = {
        "title": bay.title,
        "accepted": not bay.not_accepted,
        "rows_loaded": len(bay.loaded),
        "rows_accepted": bay.accepted,
        "mass": bay.mass,
        "greatest_racking": bay.racking,
    }
    if bay.loaded:
        row, worst = worst_row(bay)
        data["worst_use"] = {"row": row.number, **placed_data(row.result, worst)}
    return {**data, "rows": [row_data(number, row) for number, row in enumerate(bay.rows, 1)]}


def row_data(number, row):
    if row is None:
        return {"row": number, "loaded": False}
    return {
        "row": number,
        "loaded": True,
        "file": row.row.name,
        "exposed_tiers": exposed_tiers(row),
        "open_sides": [list(sides) for sides in row.sides],
        "wind_differs": [{"described": words, "tiers": tiers} for words, tiers in wind_differs(row)],
        **stack_data(row.result),
    }
