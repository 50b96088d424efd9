"""Whether an edit that was found refused is taken as it is as long as nothing changes that this rests on, and no longer (tools/kept.py).

    kept.py FOLDER    needs no toolchain; the folder is made

The last line is `N passed, M failed`.
"""
import os
import sys
import time

TOOLS = os.path.join(os.path.dirname(os.path.realpath(__file__)), "..", "..", "tools")
sys.path.insert(0, TOOLS)

import kept

counts = {True: 0, False: 0}


def same(name, found, wanted):
    counts[found == wanted] += 1
    if found != wanted:
        print(f"FAILED: kept: {name}: {found!r}, and not {wanted!r}", flush=True)


class Crate:
    """A crate with that stamp, which is the sum of the toolchain and of its text and the text below."""

    def __init__(self, stamp, name="low"):
        self.name, self.text = name, stamp

    def stamp(self):
        return self.text


def write(file, text):
    os.makedirs(os.path.dirname(file), exist_ok=True)
    with open(file, "w", encoding="utf-8") as it:
        it.write(text)


def told(crate, file, is_anew=False):
    """What a run finds of the edit in this file."""
    run = kept.Kept(is_anew)
    return run.told(run.keys(crate, [file])[file])


def keeps(folder):
    """An edit that was refused once."""
    file, crate = f"{folder}/one.edit", Crate("text")
    write(file, "file: src/lib.rt\nold: 1\nnew: 2\n")
    run = kept.Kept()
    run.keep(crate, {file: "it is not\n proved"}, run.keys(crate, [file]))
    same("the same again", told(crate, file), "it is not proved")
    same("anew", told(crate, file, True), None)
    same("another text of the crate or below, or another toolchain", told(Crate("other"), file), None)
    same("another crate", told(Crate("text", "high"), file), None)
    write(f"{folder}/two.edit", kept.bytes_of(file).decode())
    same("another edit of the same bytes", told(crate, f"{folder}/two.edit"), None)
    write(file, "file: src/lib.rt\nold: 1\nnew: 3\n")
    same("other bytes of the edit", told(crate, file), None)
    write(file, "file: src/lib.rt\nold: 1\nnew: 2\n")
    same("its bytes again", told(crate, file), "it is not proved")
    for name in kept.OWN:
        own = kept.bytes_of
        kept.bytes_of = lambda path: own(path) + b" " * path.endswith(f"/{name}")
        same(f"another tools/{name}", told(crate, file), None)
        kept.bytes_of = own


def keeps_not(folder):
    """What changed while it was tried, what isn't whole, and a folder that others may write."""
    file, crate, run = f"{folder}/three.edit", Crate("before"), kept.Kept()
    write(file, "file: src/lib.rt\nold: 1\nnew: 2\n")
    keys = run.keys(crate, [file])
    crate.text = "meanwhile"
    run.keep(crate, {file: "it is not proved"}, keys)
    crate.text = "before"
    same("a text that changed while it was tried", told(crate, file), None)
    for what, text in (("a torn entry", "refused: it is not pro"), ("another word", "proved: it is\n"), ("an empty entry", "")):
        write(f"{run.at}/{keys[file]}", text)
        same(what, told(crate, file), None)
    run.keep(crate, {file: "it is not proved"}, keys)
    same("a torn entry is mended", told(crate, file), "it is not proved")
    same("nothing else lies there", [it for it in os.listdir(run.at) if len(it) != 64], [])
    old = time.time() - kept.LONGEST - 100
    os.utime(f"{run.at}/{keys[file]}", (old, old + 200))
    same("an entry of two months", told(crate, file), "it is not proved")
    os.utime(f"{run.at}/{keys[file]}", (old, old))
    same("an older one", told(crate, file), None)
    run.keep(crate, {file: "it is not proved"}, keys)
    os.chmod(run.at, 0o777)
    same("a folder that others may write", told(crate, file), None)
    os.chmod(run.at, 0o700)
    os.environ["XDG_CACHE_HOME"] = "/dev/null"
    same("no folder", told(crate, file), None)
    kept.Kept().keep(crate, {file: "it is not proved"}, keys)


def main(words):
    if len(words) != 1:
        print(__doc__, file=sys.stderr)
        return 2
    os.environ["XDG_CACHE_HOME"] = f"{words[0]}/cache"
    keeps(words[0])
    keeps_not(words[0])
    print(f"{counts[True]} passed, {counts[False]} failed")
    return 1 if counts[False] else 0


if __name__ == "__main__":
    sys.exit(main(sys.argv[1:]))
