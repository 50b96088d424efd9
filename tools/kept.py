"""The edits that an earlier run on this machine found refused, for `tools/edits`.

That an edit is refused rests on the toolchain, on the text of its crate and of those below, on the edit, and on the tools that try it. It is kept under the sum
of all these, so it never goes stale: where one of them is another, so is the sum. It is kept for all clones of the user, in his cache (`rooms/edits` there), which only
he may write, apart from what the toolchain keeps. What isn't refused is kept nowhere. This asks for as much trust as what `rt ci` keeps of proofs.
"""
import contextlib
import hashlib
import os
import stat
import tempfile
import time

TOOLS = os.path.dirname(os.path.realpath(__file__))
# an entry that no run took for so many seconds goes
LONGEST = 60 * 24 * 3600
# the tools whose bytes a verdict rests on
OWN = ("edits", "definitions.py", "kept.py", "lanes.py", "plain.py", "toolchain.py")


def bytes_of(file):
    with open(file, "rb") as it:
        return it.read()


def cache():
    """The folder, which is made where it isn't there; None where it can't be, or isn't the user's own."""
    top = os.environ.get("XDG_CACHE_HOME") or os.path.expanduser("~/.cache")
    at = f"{top}/rooms/edits"
    try:
        os.makedirs(at, 0o700, exist_ok=True)
        found = os.lstat(at)
    except OSError:
        return None
    return at if stat.S_ISDIR(found.st_mode) and found.st_uid == os.geteuid() and not found.st_mode & 0o022 else None


class Kept:
    """What was found, and is found in this run. Nothing that was is taken where all is to be tried anew."""

    def __init__(self, is_anew=False):
        self.is_anew, self.at = is_anew, cache()
        self.tools = [bytes_of(f"{TOOLS}/{it}") for it in OWN]
        self.drop_old()

    def drop_old(self):
        for it in os.scandir(self.at) if self.at else ():
            # (another run may drop it too)
            with contextlib.suppress(OSError):
                if it.stat().st_mtime < time.time() - LONGEST:
                    os.remove(it.path)

    def key(self, crate, file, stamp):
        """The sum of what a verdict on the edit in this file rests on, where the stamp is that of its crate."""
        return hashlib.sha256(repr((self.tools, stamp, crate.name, os.path.basename(file), bytes_of(file))).encode()).hexdigest()

    def keys(self, crate, files):
        stamp = crate.stamp()
        return {it: self.key(crate, it, stamp) for it in files}

    def told(self, key):
        """What refused the edit of this key in an earlier run; None where none found so."""
        if self.at and not self.is_anew:
            with contextlib.suppress(OSError, UnicodeDecodeError):
                os.utime(f"{self.at}/{key}")
                with open(f"{self.at}/{key}", encoding="utf-8") as it:
                    # (a text that is whole ends so)
                    word, _, text = it.read().partition(": ")
                    return text[:-1] if word == "refused" and text.endswith("\n") else None
        return None

    def keep(self, crate, found, keys):
        """Keeps for each of these files what refused its edit, if its key is still what it was before the edit was tried."""
        if not self.at or not found:
            return
        now = self.keys(crate, found)
        for file, text in found.items():
            if now[file] == keys[file]:
                with contextlib.suppress(OSError):
                    self.write(keys[file], f"refused: {' '.join(text.split())}\n")

    def write(self, key, text):
        # (apart and then renamed, so that nobody meets half of it)
        number, path = tempfile.mkstemp(dir=self.at)
        with os.fdopen(number, "w", encoding="utf-8") as it:
            it.write(text)
        os.replace(path, f"{self.at}/{key}")
