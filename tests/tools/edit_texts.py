"""Whether each edit fits the text as it stands: each of its old texts stands in its file once. No prover is needed for it.

    edit_texts.py [CRATE..]     of the edits of these crates, and of those that turn their definitions; or of all

The last line is `N passed, M failed`.
"""
import os
import sys

sys.path.insert(0, os.path.join(os.path.dirname(os.path.realpath(__file__)), "..", "..", "tools"))
sys.dont_write_bytecode = True

import plain
from toolchain import ROOT, listed


def main(names):
    found = [it for it in plain.edits_of(listed(), []) if not names or it.crate.name in names or it.home in names]
    stale = [it for it in found if not it.texts(ROOT)]
    for it in stale:
        print(f"FAILED: edit_texts: {it.name}: an old text of it doesn't stand in its file once")
    print(f"{len(found) - len(stale)} passed, {len(stale)} failed")
    return 1 if stale else 0


if __name__ == "__main__":
    sys.exit(main(sys.argv[1:]))
