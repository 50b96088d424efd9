"""What the tools run where a toolchain doesn't have the names that they know (toolchain.py): public commands of `rt` alone, one after the other.

Each takes longer than what it stands for, and comes to the same verdict: `rt lib` proves a library, and `rt must-fail` tries the edits of a folder
`must-fail`, into which they are put in a copy of the repository. An edit of another crate's definition is made in the copy, and `rt check` has
to refuse the crate whose law it breaks.
"""
import os
import re
import shutil
import subprocess
import tempfile

from toolchain import ROOT, command, crates

PARTS = ("src", "specs", "proofs")
# `rt must-fail` counts as refused too what is refused since a proof names what the edit took away
REFUSED = re.compile(r"refused, as it must be(?! \(only because a proof file names)(?:: (.*))?")
ERROR = re.compile(r"(?:\./)?(\S+?):\d+:\d+: error: (.*)")
OPEN = re.compile(r"note: \S+:\d+:\d+: it is not proved that ")
# What the prover says, but for what stands in backquotes, of a name or a field that isn't there, of a text that it can't read, and of a declaration that
# rests on one that it refused.
NAMES = re.compile(
    r"\bhas no\b|^:? ?record\b|is not in scope|is no name|operand is missing|expected the end|cannot continue|was not admitted"
    r"|was rejected, (?:was|were) not checked|^\d+ declarations? that depends? on"
)


def text_of(file):
    with open(file, encoding="utf-8") as it:
        return it.read()


def is_by_names(error):
    """Whether the prover refuses a declaration so for a name that isn't there, or for another declaration, and not for a goal that stays open."""
    return NAMES.search(re.sub(r"`[^`]*`", "", error)) is not None


def has_open_goal(lines):
    """Whether the prover, which printed these lines, refuses a goal."""
    return any(OPEN.match(it) or (found := ERROR.match(it)) and not is_by_names(found[2]) for it in lines)


def call(words, folder, out=None):
    """The status of this command of `rt` in the folder, and what it printed, unless it was written to a file."""
    how = {"cwd": folder, "stdin": subprocess.DEVNULL, "stdout": out or subprocess.PIPE, "stderr": subprocess.STDOUT, "errors": "replace"}
    ran = subprocess.run([command(), *words], **how)
    return ran.returncode, ran.stdout


def prove(libraries, tell):
    """Proves and builds these libraries, each after those that it stands on; returns whether all are proved."""
    failed = set()
    for number, crate in enumerate(libraries, 1):
        if failed & {it.name for it in crate.below()}:
            failed.add(crate.name)
            continue
        tell(f"proving {crate.name}, {number} of {len(libraries)}")
        os.makedirs(f"{crate.folder}/out", exist_ok=True)
        log = f"{crate.folder}/out/prove.log"
        with open(log, "w", encoding="utf-8") as out:
            status, _ = call(["lib", "--jobs", "1"], crate.folder, out)
        if status:
            failed.add(crate.name)
            tell(f"{crate.name} is not proved (status {status}); {log} ends:\n{''.join(text_of(log).splitlines(True)[-8:])}")
        else:
            tell(f"{crate.name} is proved")
    return not failed


def copy_repository(to):
    """Copies what is proved, without what was built."""
    for name in ("crates.txt", "HANDLES"):
        if os.path.isfile(f"{ROOT}/{name}"):
            shutil.copyfile(f"{ROOT}/{name}", f"{to}/{name}")
    for crate in crates():
        for part in PARTS:
            if os.path.isdir(f"{crate.folder}/{part}"):
                shutil.copytree(f"{crate.folder}/{part}", f"{to}/crates/{crate.name}/{part}")


class Edit:
    """An edit as its file has it: the crate that has to refuse it, and the one whose text it turns."""

    def __init__(self, crate, file):
        self.crate, self.file, self.text = crate, os.path.basename(file), text_of(file)
        self.name = f"{crate.name}/{self.file}"
        named = re.search(r"^crate: (\S+)$", self.text, re.M)
        self.home = named[1] if named else crate.name

    def texts(self, top):
        """The files' own texts and those that the edit makes of them, by path; None where an old text doesn't stand there once."""
        path, old, own, texts = "", "", {}, {}
        for line in self.text.split("\n"):
            word, _, text = line.partition(": ")
            if word == "file":
                path = f"{top}/crates/{self.home}/{text.strip()}"
            elif word == "old":
                old = text
            elif word.rstrip(":") == "new":
                if path not in own and os.path.isfile(path):
                    own[path] = texts[path] = text_of(path)
                if not old or texts.get(path, "").count(old) != 1:
                    return None
                texts[path] = texts[path].replace(old, text)
        return (own, texts) if own else None

    def turn(self, top):
        """Makes the edit in the copy; returns the files' own texts, or None where it doesn't fit."""
        found = self.texts(top)
        if not found:
            return None
        put(found[1])
        return found[0]


def put(texts):
    for path, text in texts.items():
        with open(path, "w", encoding="utf-8") as it:
            it.write(text)


def edits_of(chosen, names):
    """The edits of these crates, or those of them that are named as CRATE/EDIT."""
    found = []
    for crate in chosen:
        folder = f"{crate.folder}/edits"
        files = sorted(it for it in os.listdir(folder) if it.endswith(".edit")) if os.path.isdir(folder) else []
        if names and crate.name not in names:
            files = [it for it in files if f"{crate.name}/{it[: -len('.edit')]}" in names]
        found += [Edit(crate, f"{folder}/{it}") for it in files]
    return found


def try_edits(chosen, names, say):
    """Tries the edits; returns how many are refused, and those that aren't, each with the reason."""
    failed, edits = [], edits_of(chosen, names)
    with tempfile.TemporaryDirectory(prefix="edits-plain-") as top:
        copy_repository(top)
        for crate in {it.crate.name: it.crate for it in edits}.values():
            own = [it for it in edits if it.crate is crate]
            for edit, why in [*in_must_fail(top, [it for it in own if it.home == crate.name]), *in_place(top, [it for it in own if it.home != crate.name])]:
                say(f"{edit.name}: {why or 'refused, as it has to be'}")
                failed += [(edit, why)] if why else []
    return len(edits) - len(failed), failed


def in_must_fail(top, edits):
    """Tries edits of one crate's own text by `rt must-fail`; of each what is wrong with it, or nothing. An edit of which it says nothing that is known here
    is tried alone, and its status counts."""
    if not edits:
        return []
    status, printed = must_fail(top, edits)
    told = {it: re.search(rf"\bmust-fail {re.escape(it.name)}: (.*)", printed) for it in edits}
    found = []
    for edit in edits:
        refused = told[edit] and REFUSED.match(told[edit][1])
        if refused:
            # (only the first line of what is refused stands there)
            is_shown = not refused[1] or has_open_goal([refused[1]]) or has_open_goal(check_lines(top, edit))
            found.append((edit, "" if is_shown else f"refused by names alone: {refused[1]}"))
        elif status == 0 and not told[edit] or must_fail(top, [edit])[0] == 0 and not (told[edit] and told[edit][1].startswith("refused")):
            found.append((edit, ""))
        else:
            found.append((edit, told[edit][1][:300] if told[edit] else printed.rstrip().rpartition("\n")[2]))
    return found


def must_fail(top, edits):
    """The status of `rt must-fail` with these edits alone, and what it printed."""
    name = edits[0].crate.name
    folder = f"{top}/crates/{name}/must-fail"
    shutil.rmtree(folder, ignore_errors=True)
    os.makedirs(folder)
    put({f"{folder}/{it.file}": it.text for it in edits})
    try:
        return call(["must-fail", name], top)
    finally:
        shutil.rmtree(folder)


def check_lines(top, edit):
    """What a check of the crate with this edit prints."""
    own = edit.turn(top)
    _, printed = call(["check", "--jobs", "1"], f"{top}/crates/{edit.crate.name}") if own else (None, "")
    put(own or {})
    return printed.split("\n")


def in_place(top, edits):
    """Tries edits of definitions of crates below by `rt check` of the crate whose law they break, which has to be proved without them; of each what is wrong with it,
    or nothing."""
    if not edits:
        return []
    folder = f"{top}/crates/{edits[0].crate.name}"
    if call(["check", "--jobs", "1"], folder)[0]:
        return [(it, "its crate isn't proved without it") for it in edits]
    found = []
    for edit in edits:
        own = edit.turn(top)
        status = call(["check", "--jobs", "1"], folder)[0] if own else None
        put(own or {})
        found.append((edit, "" if status == 1 else "an old text doesn't stand there once" if status is None else f"status {status} and not 1"))
    return found
