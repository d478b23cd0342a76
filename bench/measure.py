"""What one run of a program takes."""

import os
import subprocess
import sys


def run(words, source=None):
    """The processor time in seconds of a command, and what it writes. Ends this script where the command fails."""
    child = subprocess.Popen(words, stdin=source, stdout=subprocess.PIPE)
    told = child.stdout.read().decode()
    _, status, usage = os.wait4(child.pid, 0)
    if status != 0:
        sys.exit("the program ended with wait status {} and wrote {!r}".format(status, told))
    return usage.ru_utime + usage.ru_stime, told


def least(runs, words, path=None):
    """The least processor time of so many runs, each with the file at `path` as its standard input, if there is one."""
    times = []
    for _ in range(runs):
        if path is None:
            times.append(run(words)[0])
        else:
            with open(path, "rb") as source:
                times.append(run(words, source)[0])
    return min(times)
