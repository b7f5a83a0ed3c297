"""Which boxes of a bay the wind reaches, and on which sides (02, P6, and CR 1.3.1(40)): what the report says of it."""

from dataclasses import replace

from sheets.sheet import wind_code

PORT, STARBOARD = "port", "starboard"
STEPS = {PORT: -1, STARBOARD: 1}  # rows go from port to starboard
FAR = 3  # empty rows between that leave a side open


def open_sides(rows, index):
    """For each tier of a loaded row the sides on which its box lies in the wind; rows are sheets, none for an empty one."""
    row, below = rows[index], 0
    neighbours = {side: neighbour(rows, index, step) for side, step in STEPS.items()}
    found = []
    for tier in row.tiers:
        below += tier.height
        found.append(tuple(side for side in STEPS if shows(tier, below, neighbours[side])))
    return tuple(found)


def neighbour(rows, index, step):
    """The nearest loaded row within reach on a side, or none."""
    places = range(index + step, -1 if step < 0 else len(rows), step)
    place = next((place for place in places if rows[place]), None)
    return None if place is None or abs(place - index) > FAR else rows[place]


def shows(tier, top, beside):
    """Whether more than a third of a box shows above the row beside it, or the row is shorter than the box."""
    if beside is None or tier.size > beside.tiers[0].size:
        return True
    return 3 * (top - sum(each.height for each in beside.tiers)) > tier.height


def in_the_wind(rows):
    """Each sheet with the wind of its tiers put in, and the open sides of its tiers; none for an empty row."""
    found = []
    for index, sheet in enumerate(rows):
        sides = sheet and open_sides(rows, index)
        tiers = sheet and tuple(
            replace(tier, wind=wind_code(bool(each), tier.turned)) for tier, each in zip(sheet.tiers, sides)
        )
        found.append(sheet and (replace(sheet, tiers=tiers), sides))
    return found
