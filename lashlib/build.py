"""Makes the library, the program and C programs over them in target/, anew where the crates have changed since.

usage: python3 -m lashlib.build     makes the library and prints where it lies
"""

import fcntl
import os
import shutil
import subprocess
import sys
import time
from contextlib import contextmanager
from dataclasses import dataclass
from pathlib import Path

from lashlib import progress

ROOT = Path(__file__).resolve().parent.parent
OUTPUT = ROOT / "target" / "c"
C_WORDS = ("-O2", "-Wall", "-Wextra")
PARTS = ("src", "specs", "proofs")  # of a crate: what its proof and its code are made of


class BuildFailed(Exception):
    """Something could not be built, with the reason."""


@dataclass(frozen=True)
class Product:
    """What rt makes of a crate, in the crate's out/, and where in target/ it is kept."""

    crate: str
    name: str
    folder: str
    command: tuple  # in the crate's folder


LIBRARY = Product("lash", "liblash.a", "staticlib", ("rt", "lib"))
PROGRAM = Product("lashcheck", "lashcheck", "bin", ("rt", "run"))  # which has no other command that builds a program


def library():
    """The static library."""
    return Checkout().library()


def shared_library():
    """The library in the form that a running program loads."""
    return Checkout().shared_library()


def program():
    """The program that reads a sheet from standard input."""
    return Checkout().program()


class Checkout:
    """A folder with crates, and what is made of them in its target/."""

    def __init__(self, root=ROOT):
        self.root = root
        self.target = root / "target"

    def library(self):
        return self.proved(LIBRARY)

    def program(self):
        return self.proved(PROGRAM)

    def shared_library(self):
        archive = self.library()
        made = self.target / "c" / "liblash.so"
        if not as_new(made, archive):
            with self.locked():
                if not as_new(made, archive):
                    share(archive, made)
        return made

    def place(self, product):
        return self.target / product.folder / product.name

    def newest_source(self):
        """When a file of the crates, or a folder of theirs by gaining or losing one, last changed."""
        times = [(self.root / "crates.txt").stat().st_mtime]
        for part in PARTS:
            for top in (self.root / "crates").glob(f"*/{part}"):
                for folder, _, names in os.walk(top):
                    times += [os.stat(path).st_mtime for path in (folder, *(os.path.join(folder, n) for n in names))]
        return max(times)

    def proved(self, product):
        """A file that rt makes of a crate, made anew if it is missing or older than a source."""
        made = self.place(product)
        if not self.current(made):
            with self.locked():
                if not self.current(made):
                    self.prove(product)
        return made

    def current(self, made):
        try:
            return made.is_file() and made.stat().st_mtime >= self.newest_source()
        except OSError as error:
            raise BuildFailed(f"{error.filename}: {error.strerror}") from None

    def prove(self, product):
        why = f"{product.name} is older than its sources" if self.place(product).is_file() else f"there is no {product.name} yet"
        found(product.command, f"to prove and build {product.name}")
        # Dated by the build's begin, so that a source changed meanwhile is newer; but never before a source, whose clock may be
        # fast. And dated at all, since rt leaves a program as it was if only the times of its sources changed.
        began = max(time.time(), self.newest_source())
        last, status = progress.run(self.root, product, why)
        if status != 0:
            raise BuildFailed(f"`{' '.join(last)}` in crates/{product.crate} ended with status {status}; {self.said()}")
        self.keep(product, began)

    def said(self):
        return f"{progress.log(self.root)} has what it said"

    def keep(self, product, began):
        """Copies what was made of a crate to its place, dated so: one that is in use is never written over, only replaced."""
        made, place = self.root / "crates" / product.crate / "out" / product.name, self.place(product)
        if not made.is_file():
            raise BuildFailed(f"rt left no {made}; {self.said()}")
        place.parent.mkdir(parents=True, exist_ok=True)
        fresh = place.with_name(f"{place.name}.{os.getpid()}")
        shutil.copy(made, fresh)
        os.utime(fresh, (began, began))
        fresh.replace(place)

    @contextmanager
    def locked(self):
        """One build at a time in a checkout."""
        try:
            folder = self.target / "c"
            folder.mkdir(parents=True, exist_ok=True)
            with open(folder / "lock", "w") as lock:
                fcntl.flock(lock, fcntl.LOCK_EX)
                yield
        except OSError as error:
            raise BuildFailed(f"{error.filename}: {error.strerror}") from None


def as_new(made, source):
    return made.is_file() and made.stat().st_mtime >= source.stat().st_mtime


def share(archive, made):
    """Makes a shared library of a static one, with its date. One that is in use is never written over, only replaced."""
    fresh = made.with_name(f"{made.name}.{os.getpid()}")
    whole = ("-Wl,--whole-archive", archive, "-Wl,--no-whole-archive")
    run(("cc", "-shared", *whole, "-o", fresh), "to make a shared library")
    os.utime(fresh, (archive.stat().st_mtime,) * 2)
    fresh.replace(made)
    return made


def found(command, purpose):
    """Where the command's program lies."""
    path = shutil.which(command[0])
    if path is None:
        raise BuildFailed(f"{command[0]} is not on the PATH; it is needed {purpose}")
    return Path(path)


def run(command, purpose):
    """Runs a build command; what it prints goes to standard error."""
    found(command, purpose)
    status = subprocess.run(command, cwd=ROOT, stdin=subprocess.DEVNULL, stdout=2).returncode
    if status != 0:
        raise BuildFailed(f"`{' '.join(map(str, command))}` ended with status {status}; it is needed {purpose}")


def compiled(name, *words):
    """The program of this name in target/c, compiled from these sources and libraries."""
    OUTPUT.mkdir(parents=True, exist_ok=True)
    made = OUTPUT / name
    run(("cc", *C_WORDS, *words, "-lm", "-o", made), f"to compile {name}")
    return made


def main():
    try:
        print(library())
    except BuildFailed as reason:
        print(f"lashlib.build: {reason}", file=sys.stderr)
        return 1
    return 0


if __name__ == "__main__":
    sys.exit(main())
