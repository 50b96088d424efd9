"""Whether checks run in the right order and with the right number of jobs (tools/lanes.py), on made-up checks; what tools/gate_cost measures; and whether
tools/gate has two compilers run at once.

    lanes.py FOLDER    needs no toolchain; the folder is made

The last line is `N passed, M failed`.
"""
import importlib.machinery
import importlib.util
import io
import os
import shutil
import subprocess
import sys
import threading
import types

TOOLS = os.path.join(os.path.dirname(os.path.realpath(__file__)), "..", "..", "tools")
sys.path.insert(0, TOOLS)

import lanes

GB = 1e9
HEAD = "crate\tstage\tseconds\tGB\n"
# Four crates: `top` stands on `long`, which takes a hundred seconds, and on `short`, which takes ten; `alone` stands below nothing.
ROWS = "long\tproof\t100\t3.0\nshort\tproof\t10\t3.0\ntop\tproof\t50\t1.0\nalone\tproof\t40\t\nlong\tedits\t30\t1.0\n"
counts = {True: 0, False: 0}


def same(name, found, wanted):
    counts[found == wanted] += 1
    if found != wanted:
        print(f"FAILED: lanes: {name}: {found}, and not {wanted}", flush=True)


def made(rows, processors, gigabytes, most_jobs):
    """The lanes of the four crates' proofs, each reckoned with 10 GB, on such a machine, with these rows of what was measured."""
    with open(lanes.MEASURED, "w", encoding="utf-8") as it:
        it.write(HEAD + rows)
    lanes.rt = lambda: types.SimpleNamespace(processors=lambda: processors, free=lambda: gigabytes * GB)
    needs = {"long": [], "short": [], "alone": [], "top": ["long", "short"]}
    tasks = {(name, "proof"): ([(it, "proof") for it in below], 100, 10 * GB, lambda _given, _jobs, it=name: it) for name, below in needs.items()}
    return lanes.Lanes(tasks, most_jobs)


def begun(those):
    """What begins at once, each with its jobs."""
    found = {}
    while chosen := those.next():
        key, jobs = chosen
        those.left.remove(key)
        those.running[key] = found[key[0]] = jobs
    return found


def orders():
    # two jobs for the head of the longest chain, though it has as many lines as the others, and one for what is off it
    same("the longest chain has the jobs", begun(made(ROWS, 4, 32, 4)), {"long": 2, "short": 1, "alone": 1})
    same("two chains that are about as long", begun(made(ROWS.replace("\t10\t", "\t95\t"), 4, 32, 4)), {"long": 2, "short": 2, "alone": 1})
    same("one job each", begun(made(ROWS, 4, 32, 1)), {"long": 1, "short": 1, "alone": 1})
    # 0.85 of 11 GB hold two checks of 1.2 times 3 GB, and no third of 0.75 times 10
    same("memory as it was measured", begun(made(ROWS, 4, 11, 1)), {"long": 1, "short": 1})
    # ..and of 8 GB one; what was not measured is reckoned with three quarters of 10
    same("one check in little memory", begun(made(ROWS, 4, 8, 1)), {"long": 1})
    same("memory as it is reckoned", begun(made("", 4, 16, 1)), {"long": 1})
    same("all run in the end", made(ROWS, 2, 32, 2).run(), {(it, "proof"): it for it in ("long", "short", "alone", "top")})
    those = made(ROWS, 4, 32, 4)
    those.left, those.given = [("top", "proof")], {(it, "proof"): True for it in ("long", "short", "alone")}
    same("what is left alone has all processors", begun(those), {"top": 4})
    try:
        made("long\tproof\tmany\t3.0\n", 4, 16, 1)
        same("a bad row is refused", "taken", "refused")
    except SystemExit as error:
        same("a bad row is refused", str(error), f"{lanes.MEASURED}, line 2: not a crate, `proof`, `tests` or `edits`, seconds, and GB or nothing, with tabs between")


def costs(folder):
    """What tools/gate_cost measures of a process of a crate that takes 200 MB for some seconds, and what it keeps of that."""
    os.makedirs(f"{folder}/tools")
    shutil.copyfile(f"{TOOLS}/gate_cost", f"{folder}/tools/gate_cost")
    with open(f"{folder}/crates.txt", "w", encoding="utf-8") as it:
        it.write("long:\nshort:\ntop: long short\n")
    with open(f"{folder}/tools/measured.tsv", "w", encoding="utf-8") as it:
        it.write(HEAD + "short\tproof\t10\t3.0\nlong\tproof\t900\t9.0\n")
    run = lambda *words: subprocess.run([sys.executable, f"{folder}/tools/gate_cost", *words], capture_output=True, text=True, check=False)
    same("no account is kept", run("--keep").returncode, 1)
    work = "import time; held = bytearray(b'x') * 200_000_000; end = time.process_time() + 1\nwhile time.process_time() < end: pass\ntime.sleep(6)"
    same("the command's status", run("sh", "-c", '"$@"; exit 3', "sh", sys.executable, "-c", work, "--crate-name", "long").returncode, 3)
    same("the account is kept", run("--keep").returncode, 0)
    with open(f"{folder}/tools/measured.tsv", encoding="utf-8") as it:
        head, *rows = [line.split("\t") for line in it.read().splitlines()]
    same("the head", "\t".join(head) + "\n", HEAD)
    same("the rows of what is kept", [it[:2] for it in rows], [["long", "proof"], ["short", "proof"]])
    same("what wasn't measured stays", rows[1], ["short", "proof", "10", "3.0"])
    same("seconds and GB of what was", 1 <= int(rows[0][2]) <= 5 and rows[0][3] == "0.2", True)


class Program:
    """A program that two pretended compilers make."""

    def __init__(self):
        self.name, self.out = "top", io.StringIO()


def compilers():
    """Two compilers that each wait for the other to begin, where there is memory for both; one after the other where there isn't."""
    loader = importlib.machinery.SourceFileLoader("gate", f"{TOOLS}/gate")
    gate = importlib.util.module_from_spec(importlib.util.spec_from_loader("gate", loader))
    loader.exec_module(gate)
    for gigabytes, failing, wanted in ((32, None, ["llvm 0", "rattle 0"]), (8, None, ["llvm 0", "rattle 0"]), (32, "llvm", ["llvm 1"]), (32, "rattle", ["llvm 0", "rattle 1"])):
        gate.rt = lambda size=gigabytes: types.SimpleNamespace(free=lambda: size * GB)
        both, order, program = threading.Barrier(2, timeout=10), [], Program()

        def own(crate, backend, _words, _to):
            if gigabytes == 32:
                both.wait()
            order.append(backend)
            print(backend, "prints", file=crate.out)
            return int(backend == failing)

        compile_by = gate.side_by_side(own)
        # as `rt` calls it
        told = [f"llvm {(status := compile_by(program, 'llvm', [], 'out'))}"]
        told += [f"rattle {compile_by(program, 'rattle', [], 'out')}"] if not status else []
        name = f"two compilers, {gigabytes} GB, {failing} fails"
        same(name, told, wanted)
        same(f"{name}: both ran", sorted(order), ["llvm", "rattle"])
        same(f"{name}: what they print", program.out.getvalue(), "".join(f"{it.split()[0]} prints\n" for it in wanted))


def main(words):
    if len(words) != 1:
        print(__doc__, file=sys.stderr)
        return 2
    os.makedirs(words[0])
    lanes.MEASURED = f"{words[0]}/measured.tsv"
    orders()
    costs(f"{words[0]}/repository")
    compilers()
    print(f"{counts[True]} passed, {counts[False]} failed")
    return 1 if counts[False] else 0


if __name__ == "__main__":
    sys.exit(main(sys.argv[1:]))
