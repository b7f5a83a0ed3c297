"""Files that are written beside a report."""

from pathlib import Path

from lashtool.checking import CheckFailed
from lashtool.ending import reason


def write(name, data):
    try:
        Path(name).write_bytes(data)
    except (OSError, ValueError) as error:
        raise CheckFailed(f"{name}: cannot be written: {reason(error)}") from None
