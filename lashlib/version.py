"""The version, as the header for C has it."""

import re
from pathlib import Path

HEADER = Path(__file__).resolve().parent.parent / "include" / "lash_check.h"
PARTS = ("MAJOR", "MINOR", "PATCH")


def version():
    text = HEADER.read_text()
    return ".".join(re.search(rf"^#define LASH_VERSION_{part} (\d+)$", text, re.M)[1] for part in PARTS)
