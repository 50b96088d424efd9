"""Whether the tools do their work over a toolchain that names its own parts otherwise: `rt` of which names were taken away.

    any_kit.py FOLDER           in that folder, which it makes: that each name is missed, and every tool with a pretended `rt`, a shell's script
                                that knows the public commands and proves nothing
    any_kit.py FOLDER --whole   the same, and every tool with `rt` as it is, with one name less, and behind a shell's script, which takes minutes

The tools work on a small repository of two crates, with an edit that the prover refuses, one that it doesn't, and one of a definition that a crate above refuses; the
verdict is the same each time. The last line is `N passed, M failed`.
"""
import os
import re
import shutil
import subprocess
import sys

TOOLS = os.path.join(os.path.dirname(os.path.realpath(__file__)), "..", "..", "tools")
FILES = {
    "crates.txt": "low:\nhigh: low\n",
    "HANDLES": "Handles allowed: none.\n",
    "crates/low/specs/Lib.antt": "pub mod Echo\n",
    "crates/low/specs/Echo.antt": """-- What `echo` returns.
use Rattle.std.specs.Prelude.{ℕ}

unfoldable pub echo_of : ℕ → ℕ
echo_of x = x

unfoldable pub first : ℕ
first = 1
""",
    "crates/low/proofs/echo/Answers.antt": """-- The result is `x`, which is what `echo_of` makes of it.
use Rattle.std.proofs.Common.{refl}
use Rattle.low.specs.Echo.{echo_of}
use Rattle.low.proofs.echo.Goals as goal

pub returns : goal.returns
unfolding echo_of
returns c = refl
""",
    "crates/low/src/lib.rt": """//! A library with one function.
#![tactic(auto)]

ghost use Rattle.low.specs.Echo.{echo_of};
ghost use Rattle.std.specs.Prelude.{◌≡◌};

/// Returns what it is given.
pub fn echo(x: usize) -> usize
    ensures { result ≡ echo_of x }
{
    x
}
""",
    "crates/low/edits/another_answer.edit": "file: src/lib.rt\nold:     x\nnew:     0\n",
    "crates/high/src/lib.rt": "//! Rows of the library below.\n#![tactic(auto)]\n",
    "crates/high/specs/Lib.antt": "",
    "crates/high/proofs/Lib.antt": "mod EchoRows\n",
    "crates/high/proofs/EchoRows.antt": """-- Rows that the definitions compute.
use Rattle.std.specs.Prelude.{◌≡◌, refl}
use Rattle.low.specs.Echo.{first}

one : first ≡ 1
unfolding first
one = refl
""",
    "crates/high/edits/another_first.edit": "rows: EchoRows\ncrate: low\nfile: specs/Echo.antt\nold: first = 1\nnew: first = 2\n",
}
# an edit that means the same, which no prover refuses, whose only goal is left out
SAME = "crates/low/edits/the_same.edit", "file: src/lib.rt\nold:     x\nnew:     (x)\nbeside: returns\n"
# `rt` without the names that AWAY has; as a command it is `rt` itself
STAND_IN = '''#!/usr/bin/env python3
import importlib.machinery, importlib.util, os, sys
AWAY = {taken}

if __name__ == "__main__":
    os.execv({real}, [{real}, *sys.argv[1:]])
loader = importlib.machinery.SourceFileLoader("whole_rt", {real})
whole = importlib.util.module_from_spec(importlib.util.spec_from_loader("whole_rt", loader))
sys.modules["whole_rt"] = whole
loader.exec_module(whole)
globals().update({{name: it for name, it in vars(whole).items() if not name.startswith("__")}})
for name in AWAY:
    of, _, last = name.rpartition(".")
    if of:
        at = globals()[of.partition(".")[0]]
        for part in of.split(".")[1:]:
            at = getattr(at, part)
        delattr(at, last)
    else:
        del globals()[last]
'''
NO_MODULE = '#!/bin/sh\nexec {real} "$@"\n'
# The public commands of an `rt` that looks for the text of the edits above, and says so in words of its own, or in those of today's `rt`
PRETENDED = """#!/bin/sh
case $1 in
    version) echo 'pretended' ;;
    lib) mkdir -p "out/rlib/${{PWD##*/}}.rlib" ;;
    ci) echo '2 passed, 0 failed' ;;
    check) ! grep -q 'first = 2' ../low/specs/Echo.antt ;;
    must-fail)
        status=0
        for edit in "crates/$2/must-fail/"*.edit; do
            if grep -q '^new:     0$' "$edit"; then said='{refused}'; else said='{passed}' status=1; fi
            echo "rt: must-fail $2/${{edit##*/}}: $said"
        done
        exit $status
        ;;
    *) exit 2 ;;
esac
"""


class Tries:
    """The folder of the tries, and how many passed and failed."""

    def __init__(self, folder):
        self.folder, self.repository, self.passed, self.failed = folder, f"{folder}/repository", 0, 0
        # whether the toolchain hands libraries of one clone on to another
        self.hands_on = False
        self.real = os.path.realpath(shutil.which("rt"))
        for path, text in FILES.items():
            write(f"{self.repository}/{path}", text)
        # (the tools work on the repository in which they stand)
        os.makedirs(f"{self.repository}/.git")
        shutil.copytree(TOOLS, f"{self.repository}/tools", ignore=lambda at, names: [it for it in names if os.path.isdir(f"{at}/{it}")])

    def told(self, what, is_well, printed):
        if is_well:
            self.passed += 1
        else:
            self.failed += 1
            print(f"FAILED: any_kit: {what}; it printed:\n{printed[-1500:]}", flush=True)

    def stand_in(self, text):
        """Makes a folder with that text as `rt`; returns it."""
        folder = f"{self.folder}/with"
        write(f"{folder}/rt", text)
        os.chmod(f"{folder}/rt", 0o755)
        return folder

    def run(self, tool, words, folder):
        """The status of a tool with the `rt` of that folder, and all that it printed."""
        how = {"cwd": self.repository, "stdin": subprocess.DEVNULL, "stdout": subprocess.PIPE, "stderr": subprocess.STDOUT, "errors": "replace"}
        # (a tool starts others, and each says what is missing)
        path = f"{folder}:{os.environ['PATH']}" if folder else os.environ["PATH"]
        ran = subprocess.run([f"{self.repository}/tools/{tool}", *words], env={**os.environ, "PATH": path, "PYTHONDONTWRITEBYTECODE": "1", "XDG_CACHE_HOME": f"{self.folder}/cache"}, **how)
        return ran.returncode, ran.stdout

    def clear(self):
        for crate in ("low", "high"):
            shutil.rmtree(f"{self.repository}/crates/{crate}/out", ignore_errors=True)
        shutil.rmtree(f"{self.folder}/cache", ignore_errors=True)

    def all_tools(self, what, text, line):
        """Every tool with that text as `rt`, or with `rt` itself; each says that line, or none that begins so."""
        folder = self.stand_in(text) if text else None
        says = lambda printed: line in printed if folder else "this `rt" not in printed
        status, printed = self.run("rt", ["version"], folder)
        self.told(f"rt, {what}", status == 0 and says(printed) and re.search(r"\S", printed), printed)
        self.clear()
        status, printed = self.run("prove", ["high"], folder)
        built = all(os.path.isdir(f"{self.repository}/crates/{it}/out/rlib/{it}.rlib") for it in ("low", "high"))
        self.told(f"prove, {what}", status == 0 and says(printed) and built, printed)
        if not text:
            self.another_clone(what)
        status, printed = self.run("edits", [], folder)
        self.told(f"edits, {what}", status == 0 and says(printed) and printed.endswith("\n2 passed, 0 failed\n"), printed)
        if not text:
            self.kept_edits(what)
        write(f"{self.repository}/{SAME[0]}", SAME[1])
        status, printed = self.run("edits", ["low"], folder)
        self.told(f"an edit that means the same, {what}", status == 1 and printed.endswith("\n1 passed, 1 failed\n") and "FAILED: low/the_same.edit" in printed, printed)
        os.remove(f"{self.repository}/{SAME[0]}")
        self.clear()
        status, printed = self.run("gate", [], folder)
        of_ci = re.search(r"^(\d+) passed, 0 failed$", printed, re.M)
        self.told(f"gate, {what}", status == 0 and says(printed) and of_ci and printed.endswith("\nedits: 2 passed, 0 failed\n"), printed)

    def another_clone(self, what):
        """Whether a clone takes the libraries that this one proved, if the toolchain hands them on, and proves the one whose text differs, and what stands on it."""
        own, taken = self.repository, "was proved in another clone on this machine"
        for change, count in (("", 2 * self.hands_on), ("\n", 0)):
            self.repository = f"{self.folder}/clone{len(change)}"
            shutil.copytree(own, self.repository, ignore=shutil.ignore_patterns("out"))
            write(f"{self.repository}/crates/low/src/lib.rt", FILES["crates/low/src/lib.rt"] + change)
            status, printed = self.run("prove", ["high"], None)
            built = all(os.path.isdir(f"{self.repository}/crates/{it}/out/rlib/{it}.rlib") for it in ("low", "high"))
            self.told(f"prove in another clone, {what}, {count} of two taken", status == 0 and built and printed.count(taken) == count, printed)
            shutil.rmtree(self.repository)
        self.repository = own

    def kept_edits(self, what):
        """Whether edits that were found refused are taken so, and tried again after a change of the crate below both, and where all are to be."""
        taken = "refused, as an earlier run on this machine found"
        for words, changes, count in (([], False, 2), (["--anew"], False, 0), ([], True, 0), ([], False, 2)):
            if changes:
                write(f"{self.repository}/crates/low/src/lib.rt", FILES["crates/low/src/lib.rt"].replace("Returns what", "Gives back what"))
            status, printed = self.run("edits", words, None)
            self.told(f"edits {words} again, {what}, {count} of them taken", status == 0 and printed.count(taken) == count and printed.endswith("\n2 passed, 0 failed\n"), printed)
        write(f"{self.repository}/crates/low/src/lib.rt", FILES["crates/low/src/lib.rt"])

    def each_name(self):
        """Whether each name that is missing, or is something else, is told."""
        sys.path.insert(0, f"{self.repository}/tools")
        import toolchain

        self.told("that no name is missing", toolchain.missing() == "", toolchain.missing())
        made = toolchain.loaded()
        self.hands_on = all(callable(toolchain.named(made, name)) for name in toolchain.MAY_LACK)
        for name in [*toolchain.CALLS, *toolchain.VALUES]:
            of, _, last = name.rpartition(".")
            at = toolchain.named(toolchain.loaded(), of) if of else toolchain.loaded()
            own = getattr(at, last)
            for what, other in (("missing", None), ("something else", lambda one, two, three, four, five: one)):
                toolchain.missing.cache_clear()
                setattr(at, last, other)
                told = toolchain.missing()
                setattr(at, last, own)
                self.told(f"that {name} is {what}", told == f"this `rt` has no {name} as these tools know it", told)
        for name, (count, _, _) in toolchain.MAY_LACK.items():
            own = getattr(made, name, None)
            for what, other in (("missing", None), ("something else", lambda one, two, three, four, five: one)):
                toolchain.missing.cache_clear()
                toolchain.rt.cache_clear()
                setattr(made, name, other)
                is_well = toolchain.missing() == "" and not getattr(toolchain.rt(), name)(*[None] * count)
                self.told(f"that {name} is {what}, and nothing is taken", is_well, toolchain.missing())
                setattr(made, name, own)


def write(path, text):
    os.makedirs(os.path.dirname(path), exist_ok=True)
    with open(path, "w", encoding="utf-8") as it:
        it.write(text)


def main(words):
    if not words or words[1:] not in ([], ["--whole"]):
        print(__doc__, file=sys.stderr)
        return 2
    if not shutil.which("rt"):
        print("skipped: any_kit (no rt)\n0 passed, 0 failed")
        return 0
    tries = Tries(os.path.realpath(words[0]))
    tries.each_name()
    no_module, of_today = "this `rt` can't be loaded as a module (no module)", {"refused": "refused, as it must be", "passed": "NOT REFUSED"}
    tries.all_tools("pretended", PRETENDED.format(**of_today), no_module)
    tries.all_tools("pretended, in other words", PRETENDED.format(refused="fine", passed="not fine"), no_module)
    if words[1:] == ["--whole"]:
        tries.all_tools("all names", None, "")
        tries.all_tools("no in_lanes", STAND_IN.format(taken=["in_lanes"], real=repr(tries.real)), "this `rt` has no in_lanes as these tools know it")
        tries.all_tools("no module", NO_MODULE.format(real=tries.real), no_module)
    print(f"{tries.passed} passed, {tries.failed} failed")
    return 1 if tries.failed else 0


if __name__ == "__main__":
    sys.exit(main(sys.argv[1:]))
