"""Runs a command in a terminal of its own, and types passwords there: typed.py USER=PASSWORD.. -- COMMAND..

Which user's password is asked for stands in a line 'the password of USER' before the prompts. All that the terminal shows is
printed; the status is the command's.
"""

import os
import pty
import re
import sys
import time


def main():
    at = sys.argv.index("--")
    words = dict(word.split("=", 1) for word in sys.argv[1:at])
    command = sys.argv[at + 1 :]
    child, terminal = pty.fork()
    if child == 0:
        os.execvp(command[0], command)
    unread = ""
    user = None
    while True:
        try:
            piece = os.read(terminal, 4096).decode(errors="replace")
        except OSError:
            break
        if not piece:
            break
        sys.stdout.write(piece.replace("\r", ""))
        sys.stdout.flush()
        unread += piece
        while (found := re.search(r"the password of ([a-z0-9-]+)|Password: ", unread)) is not None:
            unread = unread[found.end() :]
            if found[1] is not None:
                user = found[1]
            else:
                time.sleep(0.5)
                os.write(terminal, words[user].encode() + b"\n")
    return os.waitstatus_to_exitcode(os.waitpid(child, 0)[1])


sys.exit(main())
