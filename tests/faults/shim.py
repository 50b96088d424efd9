"""The shims refuse_nth.c, refuse_each.c and fail_nth.c, compiled, and the wishes that the first and the last one read."""

import mmap
import os
import shutil
import struct
import subprocess
import tempfile

WISHES = struct.Struct('qqqq')


def compiler():
    """A C compiler of this machine, or None."""
    return next((found for found in map(shutil.which, ('cc', 'gcc', 'clang')) if found), None)


def built(source, folder):
    """The library that this file is compiled to, by its path from here."""
    library = f'{folder}/{os.path.basename(source)[:-2]}.so'
    source = os.path.join(os.path.dirname(os.path.abspath(__file__)), source)
    subprocess.run([compiler(), '-shared', '-fPIC', '-O1', '-o', library, source], check=True)
    return library


class Shim:
    """Refuses allocations of the processes that run in its environment, one at a time; or with fail_nth.c fails their calls of the disk."""

    def __init__(self, source='refuse_nth.c'):
        self.folder = tempfile.TemporaryDirectory(prefix='rooms-shim-')
        library, wishes = built(source, self.folder.name), f'{self.folder.name}/wishes'
        with open(wishes, 'w+b') as file:
            file.write(bytes(WISHES.size))
            file.flush()
            self.mapped = mmap.mmap(file.fileno(), WISHES.size)
        self.environment = {**os.environ, 'LD_PRELOAD': library, 'REFUSE_FILE': wishes, 'FAIL_FILE': wishes}

    def refuse(self, nth, has_more=False):
        """From now on the allocation, or the call, of this number is refused, or none where it is 0; the counts begin anew."""
        self.mapped[:] = WISHES.pack(nth, has_more, 0, 0)

    def seen(self):
        return WISHES.unpack(self.mapped[:])[2]

    def refused(self):
        return WISHES.unpack(self.mapped[:])[3]
