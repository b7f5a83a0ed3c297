"""What the tests share: answers written by hand and the command run in place."""

import contextlib
import io
import re
import struct
import subprocess
import tempfile
from pathlib import Path
from unittest import mock

from lashlib.calls import Reply
from lashtool.main import main

ROOT = Path(__file__).resolve().parent.parent
EXAMPLES = ROOT / "examples"


def end_bytes(racking, compression, tension, lashes=()):
    data = struct.pack(f"<B{len(racking)}i", len(racking), *racking)
    data += struct.pack(f"<B{len(compression)}I", len(compression), *compression)
    data += struct.pack(f"<B{len(tension)}I", len(tension), *tension)
    return data + bytes([len(lashes)]) + b"".join(struct.pack("<3I", *forces) for forces in lashes)


def answer_bytes(door, closed, findings=()):
    """An answer sheet: the verdict, both ends' figures, the findings."""
    listed = bytes([len(findings)]) + b"".join(map(bytes, findings))
    return bytes([1 if findings else 0]) + end_bytes(*door) + end_bytes(*closed) + listed


# Box B alone: racking 22,072.5, compression 98,891.4 at the deck.
B_END = ((22_073,), (98_892, 1), (1,))
B_ANSWER = answer_bytes(B_END, B_END)

# Figures of no real stack, each once, for examples/pulled-back.toml: six tiers, two lashes an end. The
# door end exceeds racking (to windward), compression, the corner at level 1, corner and lock at level 3, and all three limits of
# lash 1.
DOOR = (
    (11_001, 11_002, 11_003, -11_004, -11_005, -155_949),
    (900_000, 12_001, 848_001, 12_003, 12_004, 12_005, 12_006),
    (13_000, 250_001, 13_002, 299_001, 13_004, 13_005),
    ((14_000, 14_100, 14_200), (293_001, 150_001, 300_001)),
)
CLOSED = (
    (21_001, 21_002, 21_003, 21_004, 21_005, 150_000),
    (22_000, 22_001, 848_000, 22_003, 22_004, 22_005, 22_006),
    (23_000, 250_000, 23_002, 23_003, 23_004, 23_005),
    ((293_000, 24_100, 24_200), (24_001, 150_000, 300_000)),
)
FINDINGS = (
    (0, 1, 6), (0, 2, 2), (0, 3, 1), (0, 3, 3), (0, 5, 1), (0, 6, 1), (0, 7, 1),
)
PULLED_BACK_ANSWER = answer_bytes(DOOR, CLOSED, FINDINGS)


def reply(output):
    """The reply of a check whose program would write this."""
    refusal = re.fullmatch(rb"(\d+) (\d+)\n", output)
    number, second = map(int, refusal.groups()) if refusal else (0, len(output))
    return Reply(number + 256 * second, output)


def lash(*words, output=b"", stdin=b"", binary=False, twenties=None, preview=None, roll=None, side=None, bay=None, gear=None):
    """Status, output and messages of ./lash with these words, given what the program would write for the sheet, or for each, or what
    the calls for twenties and for roll would return, that for roll perhaps by the condition, or what the program would write for the
    sheet with a move, or for its side walls, or functions that give the reply for a bay and for a stack with gear."""
    out, err = io.TextIOWrapper(io.BytesIO(), "utf-8"), io.StringIO()
    given = mock.patch("sys.stdin", io.TextIOWrapper(io.BytesIO(stdin)))
    with contextlib.redirect_stdout(out), contextlib.redirect_stderr(err), given:
        try:
            check = output if callable(output) else lambda data: output
            judge = None if twenties is None else lambda *asked: Reply(twenties)
            call = None if preview is None else lambda *asked: reply(preview)
            works_out = None if roll is None else lambda *condition: Reply(roll(*condition) if callable(roll) else roll)
            pitch = None if side is None else lambda *sheets: reply(side)
            calls = {"check": lambda data: reply(check(data)), "judge": judge, "call": call, "roll": works_out, "pitch": pitch}
            calls |= {"bay_call": bay, "gear_call": gear}
            status = main([str(word) for word in words], **calls)
        except SystemExit as end:
            status = end.code
    out.flush()
    written = out.buffer.getvalue()
    return status, written if binary else written.decode(), err.getvalue()


LIBRARY = """\
#include <stddef.h>
#include <stdint.h>
#include <string.h>
uint64_t %s(const uint8_t *sheet, size_t sheet_len, uint8_t *answer, size_t answer_len)
{
    static const uint8_t fixed[] = {%s};
    (void)sheet, (void)sheet_len, (void)answer_len;
    memcpy(answer, fixed, sizeof fixed);
    return (uint64_t)sizeof fixed << 8;
}
uint64_t lash_preview(const uint8_t *sheet, size_t sheet_len, uint32_t tier, uint16_t mass, uint8_t *answer, size_t answer_len)
{
    (void)tier, (void)mass;
    return %s(sheet, sheet_len, answer, answer_len);
}
uint64_t lash_forecast(const uint8_t *sheet, size_t sheet_len, uint16_t wave_height, uint16_t breadth, uint32_t hours, uint8_t *answer,
                       size_t answer_len)
{
    (void)wave_height, (void)breadth, (void)hours;
    return answer_len < 834 ? 13 | 834 << 8 : %s(sheet, sheet_len, answer, answer_len);
}
uint64_t lash_side(const uint8_t *sheet, size_t sheet_len, const uint8_t *pitch, size_t pitch_len, uint8_t *side, size_t side_len)
{
    static const uint8_t fixed[] = {0%s}; /* behind a byte that stands for none */
    (void)sheet, (void)sheet_len, (void)pitch, (void)pitch_len;
    if (side_len < 82)
        return 13 | 82 << 8;
    memcpy(side, fixed + 1, sizeof fixed - 1);
    return (uint64_t)(sizeof fixed - 1) << 8;
}
uint64_t lash_arrangements(const uint8_t *sheet, size_t sheet_len, const uint8_t *gear, size_t gear_len, uint8_t *list, size_t list_len)
{
    static const uint8_t fixed[] = {0%s}; /* behind a byte that stands for none */
    (void)sheet, (void)sheet_len, (void)gear, (void)gear_len;
    if (list_len < 258)
        return 13 | 258 << 8;
    memcpy(list, fixed + 1, sizeof fixed - 1);
    return (uint64_t)(sizeof fixed - 1) << 8;
}
uint64_t lash_bay(const uint8_t *bay, size_t bay_len, uint8_t *report, size_t report_len)
{
    return report_len < 20073 ? 13 | 20073 << 8 : %s(bay, bay_len, report, report_len);
}
uint64_t lash_twenties(uint32_t table, uint32_t acceleration, const uint32_t *masses, size_t count)
{
    (void)table, (void)acceleration, (void)masses, (void)count;
    return %s;
}
uint64_t lash_roll(uint32_t sine, uint32_t cosine, uint32_t heave, uint32_t angle, uint32_t period, uint32_t length, int32_t centre,
                   int32_t x, int32_t y, int32_t z)
{
    (void)sine, (void)cosine, (void)heave, (void)angle, (void)period, (void)length, (void)centre, (void)x, (void)y, (void)z;
    return %s;
}
"""


def library_of(folder, answer, name="lash_check", twenties=0, roll=0, side=b"", arrangements=b""):
    """A shared library whose call gives this answer for every sheet, preview, forecast and bay, these numbers for all twenties and all
    conditions of roll, this side answer for all side walls and this list for all gear."""
    source, made = folder / f"{name}.c", folder / f"{name}.so"
    numbers = (f"UINT64_C({number})" for number in (twenties, roll))
    fixed = ("".join(f", {byte}" for byte in each) for each in (side, arrangements))
    source.write_text(LIBRARY % (name, ", ".join(map(str, answer)), name, name, *fixed, name, *numbers))
    subprocess.run(["cc", "-shared", "-fPIC", source, "-o", made], check=True)
    return made


def fails_by(test, script, words, answer, count=0, **fixed):
    """That a script of reference/ shows a library that answers so, with these words, and ends with 2 where there is none."""
    with tempfile.TemporaryDirectory() as folder:
        library = library_of(Path(folder), answer, **fixed)
        for path, status, shown in ((library, 1, words), (Path(folder, "none.so"), 2, "")):
            command = [ROOT / "reference" / script, "--count", str(count), "--library", path]
            done = subprocess.run(command, capture_output=True, text=True)
            test.assertEqual(done.returncode, status, done.stderr)
            test.assertIn(shown, done.stdout)
