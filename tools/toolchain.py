"""What the tools take from the toolchain's command `rt`: which crates there are, and with which words the prover is called.

The public commands of `rt` prove all that there is, a crate after the other and an edit after the other. To do much of it side by side the tools call
functions of the script itself, which a later toolchain may name otherwise. All these stand in the tables below, and nowhere else. Where one of CALLS isn't
there, or isn't what it was, `missing` says so: then each tool prints that in one line and runs public commands instead (plain.py), which takes
longer and comes to the same verdict.
"""
import functools
import importlib.machinery
import importlib.util
import inspect
import os
import re
import shutil
import subprocess
import sys
import threading

TOOLS = os.path.dirname(os.path.realpath(__file__))
ROOT = os.path.dirname(TOOLS)
# the calls, each with how many words are handed over without a name, and the names of the others
CALLS = {
    "main": (1, ()),
    "in_lanes": (1, ()),
    "need": (1, ()),
    "processors": (0, ()),
    "free": (0, ()),
    "read_edit": (2, ()),
    "Crate.compile_by": (4, ()),
    "rtlib.crates_below": (1, ()),
    "rtlib.files_of": (1, ()),
    "rtlib.lock": (1, ()),
    "rtlib.guarded": (0, ()),
    "rtlib.Crate.below": (1, ()),
    "rtlib.Crate.stamp": (1, ()),
    "rtlib.Crate.is_built": (1, ()),
    "rtlib.Crate.has_tests": (1, ()),
    "rtlib.Crate.count": (2, ()),
    "rtlib.Crate.call": (3, ()),
    "rtlib.Crate.words": (2, ("keeps",)),
    "rtlib.Crate.build_rlib": (2, ("anew",)),
}
# calls that a toolchain may lack, and what stands for each: without these two, no library of another clone is taken
MAY_LACK = {"take_rlib": (1, (), lambda crate: False), "offer": (2, (), lambda crate, stamp: None)}
# values with their types, and those that each crate has
VALUES = {"rtlib.RATTLE": str, "rtlib.PARTS": tuple, "rtlib.STALE": re.Pattern}
FIELDS = {"name": str, "folder": str, "rlib": str, "out": object, "is_program": bool, "deps": list}
# flags of the prover, by its commands
FLAGS = {"check": ("--only", "--allow-holes", "--incremental", "--jobs", "--progress", "--test"), "build": ("--jobs", "--statements")}


def command():
    """The path of the command `rt`; ends the run where there is none."""
    found = shutil.which("rt")
    if not found:
        sys.exit("there is no `rt` on the path: install the toolchain first")
    return found


@functools.lru_cache(maxsize=None)
def loaded():
    """The command as a module; raises an error where it is none."""
    path = os.path.realpath(command())
    with open(path, encoding="utf-8") as it:
        # (any other script would run when it is loaded)
        if not re.search(r"""^if __name__ == ["']__main__["']:$""", it.read(), re.M):
            raise ImportError("no module")
    sys.dont_write_bytecode = True
    loader = importlib.machinery.SourceFileLoader("rt", path)
    made = importlib.util.module_from_spec(importlib.util.spec_from_loader("rt", loader))
    sys.modules["rt"] = made
    loader.exec_module(made)
    return made


@functools.lru_cache(maxsize=None)
def missing():
    """Which of the tables' names the toolchain lacks, or has in another shape, in words for a line of print; empty where it has all."""
    try:
        made = loaded()
    except (Exception, SystemExit) as error:
        return f"this `rt` can't be loaded as a module ({str(error).partition(chr(10))[0] or type(error).__name__})"
    lost = [name for name, how in CALLS.items() if not takes(named(made, name), *how)]
    lost += [name for name, kind in VALUES.items() if not isinstance(named(made, name), kind)]
    lost = lost or lost_on_crates(made) or lost_flags(made)
    return f"this `rt` has no {', '.join(lost)} as these tools know it" if lost else ""


def named(made, name):
    """The value of that name in the module, or None."""
    for part in name.split("."):
        made = getattr(made, part, None)
    return made


def takes(call, count, names):
    """Whether this can be called with so many words, and with words of these names."""
    try:
        inspect.signature(call).bind(*[None] * count, **dict.fromkeys(names))
    except (TypeError, ValueError):
        return False
    return True


def lost_on_crates(made):
    """The names that don't give what they gave, asked of the repository's own crates."""
    lost, tried = [], ""
    try:
        # (what is wrong with the repository's own list of crates ends the run, in the words of `rt`)
        tried, found = "rtlib.crates_below", made.rtlib.crates_below(ROOT)
        lost += [f"rtlib.Crate.{name}" for name, kind in FIELDS.items() if not all(isinstance(getattr(it, name, None), kind) for it in found)]
        lost += [] if found and isinstance(found, list) else [tried]
        for it in [] if lost else found[-1:]:
            for tried, kind, call in (
                ("rtlib.Crate.below", list, it.below),
                ("rtlib.Crate.words", list, lambda: it.words(["--jobs", "1"], keeps=False)),
                ("rtlib.Crate.count", int, lambda: it.count(rb"\n")),
                ("need", (int, float), lambda: made.need(it)),
                ("processors", int, made.processors),
                ("free", (int, float), made.free),
                ("read_edit", tuple, lambda: made.read_edit(f"{it.folder}/no.edit", it.folder)),
            ):
                lost += [] if isinstance(call(), kind) else [tried]
    except Exception:
        lost.append(tried)
    return lost


def lost_flags(made):
    """The flags that the prover's own help doesn't name."""
    lost = []
    for verb, flags in FLAGS.items():
        try:
            told = subprocess.run([made.rtlib.RATTLE, verb, "--help"], stdin=subprocess.DEVNULL, capture_output=True, text=True, errors="replace").stdout
        except OSError:
            return ["rtlib.RATTLE"]
        lost += [f"{verb} {it}" for it in flags if not re.search(rf"{it}\b", told)]
    return lost


def is_plain(tool, instead):
    """Whether public commands have to do; then it says so in one line, and what runs instead."""
    if missing():
        print(f"{tool}: {missing()}: {instead}", file=sys.stderr, flush=True)
    return bool(missing())


@functools.lru_cache(maxsize=None)
def rt():
    """The script `rt` on the path, loaded; ends the run where it lacks a name."""
    if missing():
        sys.exit(missing())
    made = loaded()
    made.rtlib.Crate.stamp = once_a_crate(made.rtlib.Crate.stamp)
    for name, (count, names, instead) in MAY_LACK.items():
        if not takes(named(made, name), count, names):
            setattr(made, name, instead)
    return made


def once_a_crate(stamp):
    """Some toolchains sum up the sources of a crate and of those below it once for each way that leads to one: 2,194 times for those below `rooms`.
    The function that is returned gives the same sums, and takes that of each crate once a call."""
    taken = threading.local()

    def sum_of(crate):
        is_outermost = not hasattr(taken, "sums")
        if is_outermost:
            taken.sums = {}
        try:
            if crate.folder not in taken.sums:
                taken.sums[crate.folder] = stamp(crate)
            return taken.sums[crate.folder]
        finally:
            if is_outermost:
                del taken.sums

    return sum_of


class Listed:
    """A crate as crates.txt lists it."""

    def __init__(self, name, deps):
        self.name, self.folder, self.deps = name, f"{ROOT}/crates/{name}", deps
        self.is_program = os.path.isfile(f"{self.folder}/src/main.rt")

    def below(self):
        """The crates that this one stands on, each after those that it stands on."""
        found = []
        for dep in self.deps:
            found += [it for it in [*dep.below(), dep] if it not in found]
        return found


def listed():
    """The crates of crates.txt, each after those that it stands on."""
    with open(f"{ROOT}/crates.txt", encoding="utf-8") as it:
        rows = re.findall(r"^(\w+)[^:#\n]*(?::([^#\n]*))?", it.read(), re.M)
    needs, known = {name: deps.split() for name, deps in rows}, {}

    def crate(name):
        if name not in known:
            known[name] = Listed(name, [crate(it) for it in needs[name] if it in needs])
        return known[name]

    return [known[name] for name in sorted(needs, key=lambda it: len(crate(it).below()))]


def crates():
    """The crates of the repository, each after those that it stands on."""
    return listed() if missing() else sorted(rt().rtlib.crates_below(ROOT), key=lambda it: len(it.below()))


def rattle(crate, flags):
    """The command that checks the crate in the folder where it is called, over the libraries that are built."""
    return [rt().rtlib.RATTLE, "check", *crate.words([*flags, "--jobs", "1"], keeps=False)]
