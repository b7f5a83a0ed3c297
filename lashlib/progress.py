"""Runs rt and shows a line a crate; all that it and the prover say goes to a log."""

import os
import re
import subprocess
import sys

CRATE = re.compile(r"== (\w+)$")  # heads what rt says of a crate
PROVED = re.compile(r"logic=proved functions=(\d+)")
TOLD = re.compile(r"rt: (mend these first|the library \w+ did not build|.*crates\.txt|.*waiting for)|\w+: (failed \(|not run, since )")
NOT_PROVED = re.compile(r"logic=(?!proved )|rattle build: nothing was built")
RUNS = re.compile(r"rt: running out/")  # the program, once it is proved and built
MEMORY = 2_000_000  # kB that the check of a crate may take


def log(root):
    return root / "target" / "build.log"


def dependencies(root, crate):
    """The libraries that a crate names in crates.txt."""
    for line in (root / "crates.txt").read_text().splitlines():
        name, _, words = line.partition("#")[0].partition(":")
        if name.split()[:1] == [crate]:
            return words.split()
    return []


def reached(root, crate):
    """A crate and the crates of the repository under it."""
    seen, due = set(), [crate]
    while due:
        name = due.pop()
        if name not in seen and (root / "crates" / name).is_dir():
            seen.add(name)
            due += dependencies(root, name)
    return seen


def at_once():
    """How many crates are proved side by side: one a processor, where memory is free for each."""
    processors = len(os.sched_getaffinity(0))
    try:
        with open("/proc/meminfo") as lines:
            free = next(int(line.split()[1]) for line in lines if line.startswith("MemAvailable:"))
    except (OSError, StopIteration):
        return processors
    return max(1, min(processors, free // MEMORY))


def run(root, product, why):
    """Runs what proves a crate and makes something of it; the last command run and its status."""
    lines = Lines(reached(root, product.crate))
    say(f"{why}: proving and building it, which takes some minutes the first time (all that the prover says: {log(root)})")
    # `rt all check` proves the crates under it side by side, `rt lib` and `rt run` one after the other.
    first = ("rt", "all", "check", "--jobs", str(at_once()))
    with open(log(root), "w") as notes:
        for words in (first, product.command):
            status = follow(root / "crates" / product.crate, words, notes, lines)
            if status != 0:
                break
    return words, status


def follow(folder, command, notes, lines):
    """Runs a command, with its output in the log, and gives its status; of a program that it runs, 0 whatever the program's is."""
    notes.write(f"$ {' '.join(command)}\n")
    streams = {"stdin": subprocess.DEVNULL, "stdout": subprocess.PIPE, "stderr": subprocess.STDOUT}
    runs = False
    with subprocess.Popen(command, cwd=folder, text=True, errors="replace", **streams) as running:
        for line in running.stdout:
            notes.write(line)
            lines.take(line)
            runs = runs or bool(RUNS.match(line))
    return 0 if runs else running.returncode


def say(text):
    """A line for whoever waits; if nobody can read it, the build goes on."""
    try:
        if sys.stderr is not None:
            print(text, file=sys.stderr, flush=True)
    except OSError:
        pass


class Lines:
    """What is shown of rt's output: each crate proved now, with its place in the count and its functions."""

    def __init__(self, crates):
        self.due = set(crates)
        self.total = len(self.due)
        self.name = None  # the crate that rt speaks of
        self.functions = None  # how many of it were proved now
        self.failed = False
        self.before = 0  # crates proved before that nothing was said of yet

    def take(self, line):
        head, counted = CRATE.match(line), PROVED.match(line)
        if head:
            self.close()
            self.name, self.functions, self.failed = head[1], None, False
        elif counted:
            self.functions = int(counted[1])
        elif NOT_PROVED.match(line):
            self.failed = True
        elif TOLD.match(line):
            say(line.rstrip())

    def close(self):
        """rt says nothing of a crate whose library stands as it was proved before."""
        if self.name not in self.due or self.failed:
            return
        self.due.remove(self.name)
        if self.functions is None:
            self.before += 1
            return
        what = f"{self.functions} function{'' if self.functions == 1 else 's'}" if self.functions else "theorems"
        also = f", {self.before} proved before" if self.before else ""
        self.before = 0
        say(f"  {self.total - len(self.due):>2} of {self.total}  {self.name}: {what} proved{also}")
