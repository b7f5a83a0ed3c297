"""Where stacks are read from: files, folders of them, standard input; and which words do not go together."""

import os
import sys
from collections import Counter
from dataclasses import dataclass
from pathlib import Path

from lashtool.description import BadDescription
from lashtool.ending import reason

# A description of the largest stack, with every field of every entry, takes a tenth of this.
LARGEST_FILE = 65_536
STREAM = "-"


@dataclass(frozen=True)
class Source:
    """Where a stack is read from."""

    name: str  # as given
    sheet: bool = False  # a sheet's bytes and not a description

    def __str__(self):
        return "standard input" if self.name == STREAM else self.name


def is_folder(name):
    return name != STREAM and os.path.isdir(name)


def sources(options):
    """Every stack that is meant."""
    found = [Source(options.sheet, sheet=True)] if options.sheet is not None else []
    for name in options.stacks:
        found += [Source(each) for each in (inside(name) if is_folder(name) else [name])]
    return found


def inside(folder):
    return sorted(str(path) for path in Path(folder).glob("*.toml"))


def several(options):
    """Whether stacks are summed up, a line each, and not reported in full."""
    return len(options.stacks) > 1 or any(map(is_folder, options.stacks))


def misuse(options):
    """What is wrong with the words given, if anything."""
    files = [name for name in (options.write, options.svg) if name is not None]
    if options.template:
        others = options.sources or files or options.json or options.set or options.side or options.forecast is not None
        return "--template goes alone" if others else None
    if not options.stacks and options.sheet is None:
        return "a stack is needed: a description in TOML, or --sheet with a sheet's bytes"
    if options.stacks and options.sheet is not None:
        return "either descriptions or --sheet"
    if options.stacks.count(STREAM) > 1:
        return "standard input can be read only once"
    empty = [name for name in options.stacks if is_folder(name) and not inside(name)]
    if empty:
        return f"no *.toml in the folder {empty[0]}"
    if files and several(options):
        return "--write and --svg are for one stack"
    if options.set and (files or several(options)):
        return "--set previews a move of one stack, and goes with neither --write nor --svg"
    if options.set and options.forecast is not None:
        return "--set previews a move by the route, and does not go with --forecast"
    if options.side and options.sheet is not None:
        return "--side needs a description: a stack sheet's bytes hold no A_L"
    if options.side and (several(options) or options.set or options.write is not None or options.forecast is not None):
        return "--side is for one stack, and goes with none of --set, --forecast and --write"
    if "" in files:
        return "--write and --svg need a file's name"
    if files.count(STREAM) + options.json > 1 and STREAM in files:
        return "standard output can be written only once"
    return clash(options.sources[0].name, [name for name in files if name != STREAM])


def clash(source, files):
    """Files that would be written over each other or over what is read."""
    names = [name for name in (source, *files) if name != STREAM and "\0" not in name]
    places = Counter(map(place, names))
    twice = [name for name in names if place(name) and places[place(name)] > 1]
    return f"{twice[0]} would be written over" if twice else None


def place(name):
    """What two names of one file have in common; none for what is no file, as a device."""
    if os.path.isfile(name):
        status = os.stat(name)
        return status.st_dev, status.st_ino
    return None if os.path.exists(name) else os.path.realpath(name)


def read(source, largest=LARGEST_FILE, what="stack"):
    """All bytes of a file, or a refusal if it is longer than any description of a stack, or of what else it tells of."""
    try:
        if source.name == STREAM:
            if sys.stdin is None:
                raise BadDescription("cannot be read: it is closed")
            data = sys.stdin.buffer.read(largest + 1)
        else:
            with open(source.name, "rb") as file:
                data = file.read(largest + 1)
    except (OSError, ValueError) as error:
        raise BadDescription(f"cannot be read: {reason(error)}") from None
    if len(data) > largest:
        raise BadDescription(f"has more than {largest:,} bytes; no {what} needs as many, and none is checked in part")
    return data
