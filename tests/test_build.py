"""What is made of the crates: when it is made anew, what is said meanwhile, what is taken from rt ci, and how a failed build ends."""

import contextlib
import io
import os
import re
import tempfile
import threading
import unittest
from pathlib import Path
from unittest import mock

from lashlib import after_ci, build, progress
from lashlib.build import BuildFailed, Checkout
from tests.support import ROOT

# Stands in for cc, which is not run in the checkout's folder.
CC = """\
echo "$@" >> "$(dirname "$0")/../../calls"
while [ $# -gt 1 ]; do shift; done
echo shared > "$1"
"""

# Stands in for rt, in a crate's folder. It goes by content, not by time, and says nothing of a library that stands.
RT = """\
crate=$(basename "$PWD")
echo "$crate: $*" >> ../../calls
mkdir -p out
case $1 in
all)
    echo "== base"
    if ! cmp -s ../base/src/lib.rt ../base/out/rlib/stamp; then
        mkdir -p ../base/out/rlib
        echo "fn base::one: proved"
        echo "logic=proved functions=2 sum=0"
        cp ../base/src/lib.rt ../base/out/rlib/stamp
    fi
    echo "== $crate"
    echo "logic=proved functions=1 sum=0"
    echo "== summary"
    echo "base: ok" ;;
lib)
    echo "logic=proved functions=1 target=x86_64 sum=0"
    cat ../base/src/lib.rt > out/liblash.a ;;
run)
    cat src/main.rt > out/lashcheck
    echo "rt: running out/lashcheck; to give it other input, run that file yourself"
    exit 3 ;;
esac
"""

# Stands in for rattle, in the folder of the crate lash.
RATTLE = """\
echo "rattle $@" >> ../../calls
while [ "$1" != -o ]; do shift; done
echo over what rt ci left > "$2"
"""


class Building(unittest.TestCase):
    """A checkout of three crates, with other programs in place of rt, rattle and cc."""

    def setUp(self):
        folder = tempfile.TemporaryDirectory()
        self.addCleanup(folder.cleanup)
        self.root = Path(folder.name).resolve()
        (self.root / "crates.txt").write_text("base:\nlash staticlib: base\nlashcheck: base io\n")
        for crate, name in (("base", "lib.rt"), ("lash", "lib.rt"), ("lashcheck", "main.rt")):
            (self.root / "crates" / crate / "src").mkdir(parents=True)
            (self.root / "crates" / crate / "specs").mkdir()
            (self.root / "crates" / crate / "src" / name).write_text("first")
        self.date(-100)
        self.checkout = Checkout(self.root)

    def date(self, seconds, top="."):
        """Sets the times of all sources, from now."""
        for path in [self.root / top, *(self.root / top).rglob("*")]:
            if "target" not in path.parts:
                self.set_time(path, seconds)

    def set_time(self, path, seconds):
        os.utime(path, (path.stat().st_atime, self.now() + seconds))

    def now(self):
        probe = self.root / "probe"
        probe.touch()
        return probe.stat().st_mtime

    def run_with(self, make, rt=RT, rattle=RATTLE):
        """What a build gives and says, with these in place of rt and rattle."""
        tools = self.root / "tools" / "bin"
        tools.mkdir(parents=True, exist_ok=True)
        for name, script in (("rt", rt), ("cc", CC), ("rattle", rattle)):
            if script is not None:
                (tools / name).write_text(f"#!/bin/sh\n{script}\n")
                (tools / name).chmod(0o755)
        path = f"{tools}{os.pathsep}/bin{os.pathsep}/usr/bin" if rt is not None else str(tools)
        said = io.StringIO()
        with mock.patch.dict(os.environ, PATH=path), contextlib.redirect_stderr(said):
            made = make()
        return made, said.getvalue()

    def calls(self):
        """What was run since this was asked last; of rt all check without how many crates at a time."""
        path = self.root / "calls"
        found = path.read_text().splitlines() if path.exists() else []
        path.unlink(missing_ok=True)
        return [re.sub(r" --jobs \d+$", "", line) if ": all check" in line else line for line in found]


class Builds(Building):
    def test_built_once(self):
        made, said = self.run_with(self.checkout.library)
        self.assertEqual(made, self.root / "target" / "staticlib" / "liblash.a")
        self.assertEqual(self.calls(), ["lash: all check", "lash: lib"])
        self.assertIn("there is no liblash.a yet: proving and building it", said)
        self.run_with(self.checkout.library)
        self.assertEqual(self.calls(), [])

    def test_the_program_is_built_and_not_asked(self):
        """rt has no command that builds a program and does not run it; the status is then the program's."""
        made, _ = self.run_with(self.checkout.program)
        self.assertEqual(made, self.root / "target" / "bin" / "lashcheck")
        self.assertEqual(made.read_text(), "first")
        self.assertEqual(self.calls(), ["lashcheck: all check", "lashcheck: run"])

    def test_built_anew_when_a_source_is_newer(self):
        self.run_with(self.checkout.library)
        self.run_with(self.checkout.program)
        for path in (
            "crates/base/src/lib.rt", "crates.txt", "crates/base/specs", "crates/lashcheck/src/main.rt",
        ):
            for make, name in ((self.checkout.library, "liblash.a"), (self.checkout.program, "lashcheck")):
                with self.subTest(path=path, name=name):
                    self.calls()
                    self.set_time(self.root / path, 5)
                    made, said = self.run_with(make)
                    self.assertNotEqual(self.calls(), [])
                    self.assertIn(f"{name} is older than its sources", said)
                    crate = "lash" if name == "liblash.a" else "lashcheck"
                    self.assertRegex(said, rf"   2 of 2  {crate}: 1 function proved, 1 proved before\n$")
                    self.set_time(self.root / path, -100)

    def test_a_source_that_went(self):
        (self.root / "crates" / "base" / "specs" / "Lib.antt").write_text("")
        self.date(-100)
        self.run_with(self.checkout.library)
        self.calls()
        (self.root / "crates" / "base" / "specs" / "Lib.antt").unlink()
        self.set_time(self.root / "crates" / "base" / "specs", 5)
        self.run_with(self.checkout.library)
        self.assertNotEqual(self.calls(), [])

    def test_what_is_no_source(self):
        """Edits that must fail, what a program is run on, and what rt keeps are not part of what is built."""
        self.run_with(self.checkout.library)
        self.calls()
        (self.root / "crates" / "base" / "must-fail").mkdir()
        for name in ("must-fail/one.edit", "stdin", "out/kept"):
            (self.root / "crates" / "base" / name).write_text("")
            self.set_time(self.root / "crates" / "base" / name, 5)
        self.run_with(self.checkout.library)
        self.assertEqual(self.calls(), [])

    def test_new_code_is_what_runs(self):
        made, _ = self.run_with(self.checkout.library)
        self.assertEqual(made.read_text(), "first")
        source = self.root / "crates" / "base" / "src" / "lib.rt"
        source.write_text("second")
        self.set_time(source, 5)
        made, _ = self.run_with(self.checkout.library)
        self.assertEqual(made.read_text(), "second")

    def test_a_source_that_changes_during_the_build(self):
        edit = "if [ $1 = lib ]; then echo third > ../base/src/lib.rt; sleep 0.01; touch out/liblash.a; fi"
        self.run_with(self.checkout.library, f"{RT}\n{edit}")
        self.calls()
        made, _ = self.run_with(self.checkout.library)
        self.assertEqual(self.calls(), ["lash: all check", "lash: lib"])
        self.assertEqual(made.read_text(), "third\n")

    def test_a_program_that_is_gone(self):
        """rt has the proof of it, and makes it again."""
        program, _ = self.run_with(self.checkout.program)
        program.unlink()
        made, _ = self.run_with(self.checkout.program)
        self.assertEqual(made.read_text(), "first")

    def test_a_library_under_it_that_is_gone(self):
        library, _ = self.run_with(self.checkout.library)
        below = self.root / "crates" / "base" / "out" / "rlib" / "stamp"
        below.unlink()
        library.unlink()
        made, _ = self.run_with(self.checkout.library)
        self.assertTrue(below.exists())
        self.assertEqual(made.read_text(), "first")

    def test_only_the_times_changed(self):
        """rt leaves the program as it was; that is not asked for again and again."""
        self.run_with(self.checkout.program)
        self.set_time(self.root / "crates.txt", -0.5)
        self.set_time(self.root / "target" / "bin" / "lashcheck", -50)
        self.calls()
        self.run_with(self.checkout.program)
        self.assertNotEqual(self.calls(), [])
        self.run_with(self.checkout.program)
        self.assertEqual(self.calls(), [])

    def test_a_clock_that_was_fast(self):
        """A source from the future is not a reason to build for ever."""
        self.set_time(self.root / "crates.txt", 10_000)
        self.run_with(self.checkout.shared_library)
        self.calls()
        self.run_with(self.checkout.shared_library)
        self.assertEqual(self.calls(), [])

    def test_a_shared_library(self):
        made, _ = self.run_with(self.checkout.shared_library)
        self.assertEqual(made.read_text(), "shared\n")
        first = made.stat().st_ino
        self.assertEqual([words.split()[0] for words in self.calls()], ["lash:", "lash:", "-shared"])
        self.run_with(self.checkout.shared_library)
        self.assertEqual(self.calls(), [])
        with open(made) as in_use:
            self.set_time(self.root / "crates.txt", 5)
            self.run_with(self.checkout.shared_library)
            self.assertEqual([words.split()[0] for words in self.calls()], ["lash:", "lash:", "-shared"])
            self.assertEqual(os.fstat(in_use.fileno()).st_ino, first)
        self.assertNotEqual(made.stat().st_ino, first)
        self.assertEqual([path.name for path in made.parent.glob("*.so*")], ["liblash.so"])

    def test_a_program_in_use_is_replaced(self):
        made, _ = self.run_with(self.checkout.program)
        with open(made) as in_use:
            self.set_time(self.root / "crates.txt", 5)
            self.run_with(self.checkout.program)
            self.assertNotEqual(os.fstat(in_use.fileno()).st_ino, made.stat().st_ino)
        self.assertEqual([path.name for path in made.parent.iterdir()], ["lashcheck"])

    def test_what_is_built_is_used_where_nothing_can_be_written(self):
        self.run_with(self.checkout.shared_library)
        lock = self.root / "target" / "c" / "lock"
        lock.unlink()
        lock.mkdir()
        made, _ = self.run_with(self.checkout.shared_library)
        self.assertTrue(made.is_file())
        self.set_time(self.root / "crates.txt", 5)
        with self.assertRaisesRegex(BuildFailed, "lock: Is a directory"):
            self.run_with(self.checkout.shared_library)

    def test_a_line_a_crate(self):
        _, said = self.run_with(self.checkout.library)
        self.assertEqual(said.splitlines()[1:], ["   1 of 2  base: 2 functions proved", "   2 of 2  lash: 1 function proved"])
        notes = progress.log(self.root).read_text()
        self.assertIn("fn base::one: proved", notes)
        self.assertIn("$ rt lib\n", notes)

    def test_a_crate_without_functions(self):
        _, said = self.run_with(self.checkout.library, RT.replace("functions=2", "functions=0"))
        self.assertEqual(said.splitlines()[1], "   1 of 2  base: theorems proved")

    def test_failures(self):
        not_proved = "echo == base; echo logic=not-proved; echo == summary; echo 'base: failed (1)'; exit 1"
        for rt, make, message in (
            (not_proved, "library", "`rt all check --jobs .*` in crates/lash ended with status 1"),
            ("[ $1 = all ]", "library", "`rt lib` in crates/lash ended with status 1"),
            ("exit 0", "library", "rt left no .*/liblash.a"),
            ("[ $1 = all ]", "program", "`rt run` in crates/lashcheck ended with status 1"),
            (None, "library", "rt is not on the PATH; it is needed to prove and build liblash.a"),
        ):
            with self.subTest(rt, make=make), self.assertRaisesRegex(BuildFailed, message):
                (self.root / "tools" / "bin" / "rt").unlink(missing_ok=True)
                self.run_with(getattr(self.checkout, make), rt)

    def test_what_is_said_of_a_failure(self):
        said = io.StringIO()
        with contextlib.redirect_stderr(said):
            lines = progress.Lines({"base", "lash"})
            for line in ("== base", "logic=not-proved", "== summary", "base: failed (1)", "lash: not run, since base failed", "0 of 2"):
                lines.take(line)
        self.assertEqual(said.getvalue(), "base: failed (1)\nlash: not run, since base failed\n")
        self.assertEqual(lines.due, {"base", "lash"})

    def test_no_crates(self):
        (self.root / "crates.txt").unlink()
        with self.assertRaisesRegex(BuildFailed, "crates.txt: No such file"):
            self.run_with(self.checkout.library)

    def test_no_place_to_build(self):
        (self.root / "target").write_text("no folder")
        with self.assertRaisesRegex(BuildFailed, "target"):
            self.run_with(self.checkout.library)

    def test_one_build_at_a_time(self):
        slow = f"echo begin >> ../../order\nsleep 0.1\n{RT}\necho end >> ../../order"

        def build():
            Checkout(self.root).library()

        def both():
            other = threading.Thread(target=build)
            other.start()
            build()
            other.join()

        self.run_with(both, slow)
        self.assertEqual((self.root / "order").read_text().split(), ["begin", "end"] * 2)
        self.assertEqual(self.calls(), ["lash: all check", "lash: lib"])

    def test_the_command(self):
        for library, status, words in ((lambda: "there", 0, ("there\n", "")), (self.fail_to_build, 1, ("", "lashlib.build: why\n"))):
            out, err = io.StringIO(), io.StringIO()
            with mock.patch("lashlib.build.library", library), contextlib.redirect_stdout(out), contextlib.redirect_stderr(err):
                self.assertEqual(build.main(), status)
            self.assertEqual((out.getvalue(), err.getvalue()), words)

    def fail_to_build(self):
        raise BuildFailed("why")

    def test_crates_of_this_repository(self):
        """The list has the two crates, each kind as it is taken for."""
        self.assertIn("packing", progress.dependencies(ROOT, "lash"))
        self.assertRegex((ROOT / "crates.txt").read_text(), r"(?m)^lash staticlib: ")
        self.assertTrue(progress.reached(ROOT, "lashcheck") - {"lashcheck"} < progress.reached(ROOT, "lash"))


class AfterCi(Building):
    def setUp(self):
        super().setUp()
        self.mark = self.root / "mark"
        self.mark.touch()
        self.set_time(self.mark, -50)
        self.rlib = self.root / "crates" / "base" / "out" / "rlib" / "base.rlib"
        self.rlib.mkdir(parents=True)
        self.left = self.root / "crates" / "lashcheck" / "out" / "lashcheck"
        self.left.parent.mkdir()
        self.left.write_text("left")
        (self.root / "crates" / "lash" / "out").mkdir()

    def take(self, rattle=RATTLE):
        return self.run_with(lambda: after_ci.main([str(self.mark)], self.checkout), rattle=rattle)

    def test_taken(self):
        status, said = self.take()
        self.assertEqual((status, said), (0, "liblash.a: building it over the libraries that rt ci left\n"))
        (call,) = self.calls()
        self.assertRegex(call, r"^rattle build --crate-name lash --crate-type staticlib .* -o out/liblash\.a src/lib\.rt$")
        for words in (f"--extern base={self.rlib}", f"--extern std={self.root}/tools/rlibs/std.rlib", f"-L dependency={self.rlib.parent}"):
            self.assertIn(f" {words} ", call)
        made = [self.run_with(make)[0] for make in (self.checkout.library, self.checkout.program)]
        self.assertEqual([path.read_text() for path in made], ["over what rt ci left\n", "left"])
        self.assertEqual([round(path.stat().st_mtime - self.mark.stat().st_mtime) for path in made], [0, 0])
        self.assertEqual(self.calls(), [])
        self.assertFalse(self.rlib.parent.exists(), "the next rt ci puts back what it finds")

    def test_a_library_of_another_command(self):
        (self.rlib.parent / "stamp").touch()
        status, said = self.take()
        self.assertEqual((status, self.calls()), (1, []))
        self.assertIn("base.rlib is not of this rt ci", said)
        self.assertTrue(self.rlib.exists())

    def test_not_taken(self):
        """What was there before, is not there, or may be of another text; then rt makes it as ever."""
        source = self.root / "crates" / "base" / "src" / "lib.rt"
        for path, seconds, words in (
            (self.rlib, -60, "base.rlib is not of this rt ci"),
            (self.left, -60, "lashcheck is not of this rt ci"),
            (source, -10, "a source has changed since rt ci began"),
        ):
            with self.subTest(words):
                self.set_time(path, seconds)
                status, said = self.take()
                self.assertEqual((status, self.calls()), (1, []))
                self.assertIn(words, said)
                self.set_time(path, -100 if path == source else 0)
        self.left.unlink()
        self.assertEqual(self.take()[0], 1)
        self.assertFalse((self.root / "target" / "staticlib").exists())
        self.run_with(self.checkout.library)
        self.assertEqual(self.calls(), ["lash: all check", "lash: lib"])

    def test_not_proved(self):
        status, said = self.take("exit 1")
        self.assertEqual(status, 1)
        self.assertIn("rattle ended with status 1", said)
        self.assertFalse((self.root / "target" / "staticlib").exists())

    def test_no_mark(self):
        self.mark.unlink()
        self.assertEqual(self.take()[0], 1)
        with contextlib.redirect_stderr(io.StringIO()):
            self.assertEqual(after_ci.main([]), 1)


if __name__ == "__main__":
    unittest.main()
