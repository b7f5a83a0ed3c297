"""The C library called from Python: arguments in their order, the buffer, the two numbers; and the version that the header has."""

import ctypes
import re
import subprocess
import tempfile
import unittest
from pathlib import Path

from lashlib.calls import CALLS, NUMBERS, POINTER_AND_LENGTH, READ, WRITTEN, Library, Reply
from lashlib.version import HEADER, version

# Calls that write down what they were given, as the header's and the coming ones are shaped.
SOURCE = """\
#include <stddef.h>
#include <stdint.h>
#include <string.h>
uint64_t mixed(const uint8_t *a, size_t a_len, uint32_t x, uint16_t y, uint8_t *out, size_t room)
{
    if (room < a_len + 6)
        return 13 | (uint64_t)(a_len + 6) << 8;
    memcpy(out, a, a_len);
    memcpy(out + a_len, &x, 4);
    memcpy(out + a_len + 4, &y, 2);
    return (uint64_t)(a_len + 6) << 8;
}
uint64_t two(const uint8_t *a, size_t a_len, const uint8_t *b, size_t b_len)
{
    return a_len ? a[0] : 255 | (uint64_t)(b_len ? b[b_len - 1] : 0) << 56;
}
uint64_t numbers(uint32_t x, int32_t y) { return x | (uint64_t)(uint32_t)y << 32; }
uint64_t listed(uint32_t x, const uint32_t *list, size_t count)
{
    return list == NULL ? 1 : (uint64_t)(count ? list[0] ^ list[count - 1] : x) << 8 | count;
}
"""
SHAPES = {
    "mixed": (READ, ctypes.c_uint32, ctypes.c_uint16, WRITTEN),
    "two": (READ, READ),
    "numbers": (ctypes.c_uint32, ctypes.c_int32),
    "listed": (ctypes.c_uint32, NUMBERS),
}


class Calls(unittest.TestCase):
    @classmethod
    def setUpClass(cls):
        folder = tempfile.TemporaryDirectory()
        cls.addClassCleanup(folder.cleanup)
        source, made = Path(folder.name, "calls.c"), Path(folder.name, "calls.so")
        source.write_text(SOURCE)
        subprocess.run(["cc", "-shared", "-fPIC", source, "-o", made], check=True)
        cls.library = Library(made, SHAPES)

    def test_bytes_numbers_and_a_buffer(self):
        reply = self.library.call("mixed", b"\0ab", 2**32 - 1, 513)
        self.assertEqual((reply.number, reply.second), (0, 9))
        self.assertEqual(reply.answer, b"\0ab\xff\xff\xff\xff\x01\x02")
        self.assertEqual(reply.output, reply.answer)

    def test_a_short_buffer(self):
        reply = self.library.call("mixed", b"abc", 1, 2, room=8)
        self.assertEqual((reply.number, reply.second, reply.output), (13, 9, b"13 9\n"))
        self.assertEqual(reply.buffer, bytes(8))

    def test_all_64_bits(self):
        self.assertEqual(self.library.call("two", b"", b"xz").result, 255 | ord("z") << 56)
        self.assertEqual(self.library.call("numbers", 1, -1).result, 1 | (2**32 - 1) << 32)

    def test_a_list_of_numbers(self):
        self.assertEqual(self.library.call("listed", 7, (2**32 - 1, 5, 1)).result, (2**32 - 2) << 8 | 3)
        self.assertEqual(self.library.call("listed", 7, ()).result, 7 << 8)

    def test_numbers_of_a_reply(self):
        self.assertEqual((Reply(13 + 256 * 834).number, Reply(13 + 256 * 834).second), (13, 834))
        self.assertEqual(Reply(256 * 2, b"abc").answer, b"ab")

    def test_every_call_of_the_header_is_in_the_table(self):
        text = re.sub(r"/\*.*?\*/", "", HEADER.read_text(), flags=re.S)
        declared = re.findall(r"^uint64_t (\w+)\(([^)]*)\);", text, re.M)
        self.assertEqual({name for name, _ in declared}, set(CALLS))
        for name, words in declared:
            parameters = sum(2 if kind in POINTER_AND_LENGTH else 1 for kind in CALLS[name])
            self.assertEqual(len(words.split(",")), parameters, name)


class Version(unittest.TestCase):
    def test_text_of_the_macro(self):
        with tempfile.TemporaryDirectory() as folder:
            source, made = Path(folder, "version.c"), Path(folder, "version")
            source.write_text(f'#include "{HEADER}"\n#include <stdio.h>\nint main(void) {{ puts(LASH_VERSION); return 0; }}\n')
            subprocess.run(["cc", "-std=c99", "-pedantic", "-Wall", "-Wextra", "-Werror", source, "-o", made], check=True)
            text = subprocess.run([made], capture_output=True, text=True, check=True).stdout
        self.assertEqual(text, f"{version()}\n")


if __name__ == "__main__":
    unittest.main()
