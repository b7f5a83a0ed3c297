"""Takes from the crates' out/ what `rt ci` left there: the program, and the libraries that the static library is made over.

usage: python3 -m lashlib.after_ci FILE     FILE's date is that of rt ci's begin

`rt ci` leaves each program, and each library as the crates above it read it. Of a static library it leaves nothing, and `rt lib` begins
with nothing that rt ci left: it would prove every crate a second time. So rattle itself proves the crate lash again here and compiles it,
over the libraries that rt ci left, as rt ci has it do with a program. What comes of it is byte for byte what `rt lib` makes.

Exit status 0: both stand in target/, with FILE's date; 1: not, with the reason, and they are made as ever when they are asked for.
"""

import shutil
import subprocess
import sys
from pathlib import Path

from lashlib import progress
from lashlib.build import LIBRARY, PROGRAM, BuildFailed, Checkout, found


def take(checkout, began):
    """Puts what rt ci, begun then, made of the crates into target/."""
    with checkout.locked():
        if checkout.newest_source() >= began:
            raise BuildFailed("a source has changed since rt ci began")
        libraries = sorted(progress.reached(checkout.root, LIBRARY.crate) - {LIBRARY.crate})
        made = [out_of(checkout, PROGRAM.crate) / PROGRAM.name, *(rlib(checkout, name) for name in libraries)]
        # A library that an earlier command kept is put back when rt ci ends, in place of rt ci's own, which has no stamp beside it.
        others = [path for path in made if not path.exists() or path.stat().st_mtime < began or path.with_name("stamp").exists()]
        if others:
            raise BuildFailed(f"{others[0]} is not of this rt ci")
        checkout.keep(PROGRAM, began)
        build(checkout, libraries)
        checkout.keep(LIBRARY, began)
        # No other command uses them, and the next rt ci would put them back in place of its own.
        for name in libraries:
            shutil.rmtree(rlib(checkout, name).parent, ignore_errors=True)


def out_of(checkout, crate):
    return checkout.root / "crates" / crate / "out"


def rlib(checkout, crate):
    return out_of(checkout, crate) / "rlib" / f"{crate}.rlib"


def build(checkout, libraries):
    """Has rattle prove and compile the crate of the static library over the others' libraries."""
    kit = found(("rt",), "to build the library").resolve().parent.parent
    named = ["std", *progress.dependencies(checkout.root, LIBRARY.crate)]
    paths = {name: rlib(checkout, name) if name in libraries else kit / "rlibs" / f"{name}.rlib" for name in named}
    words = [kit / "bin" / "rattle", "build", "--crate-name", LIBRARY.crate, "--crate-type", "staticlib", "--links", f"{LIBRARY.crate}="]
    words += ["--antt-project", kit / "rattle" / "logic" / "antt-project.json", "--logic-built", kit / "logic_built"]
    words += ["--toolchain", kit / "toolchain", "--backend", "llvm", "--jobs", "2"]
    for name, path in paths.items():
        words += ["--extern", f"{name}={path}"]
    for folder in (kit / "rlibs", *(rlib(checkout, name).parent for name in libraries)):
        words += ["-L", f"dependency={folder}"]
    words += ["-o", f"out/{LIBRARY.name}", "src/lib.rt"]
    progress.say(f"{LIBRARY.name}: building it over the libraries that rt ci left")
    with open(progress.log(checkout.root), "w") as notes:
        folder = checkout.root / "crates" / LIBRARY.crate
        status = subprocess.run(words, cwd=folder, stdin=subprocess.DEVNULL, stdout=notes, stderr=subprocess.STDOUT).returncode
    if status != 0:
        raise BuildFailed(f"rattle ended with status {status}; {checkout.said()}")


def main(words, checkout=None):
    if len(words) != 1:
        print(__doc__, file=sys.stderr)
        return 1
    try:
        take(checkout or Checkout(), Path(words[0]).stat().st_mtime)
    except (BuildFailed, OSError) as reason:
        print(f"lashlib.after_ci: {reason}", file=sys.stderr)
        return 1
    return 0


if __name__ == "__main__":
    sys.exit(main(sys.argv[1:]))
