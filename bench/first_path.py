"""Runs a program on schedules of growing size, and prints ratios. usage: first_path.py PROGRAM"""

import os
import shutil
import subprocess
import sys
import tempfile

from measure import least

RUNS = 9
HEAD = "pws-schedule 1\nseed {}\ngroup 0 0\ngroup 1 0\nbad 0.0\nbegin\n".format("0" * 64)


def schedule(lines):
    """A schedule of so many lines: 32 requests that get places, and then requests that get none."""
    said = []
    for k in range(lines - 7):
        number = k + 1 if k < 32 else 1 + k % 1000000
        said.append("say 0.0 1.0 01{:08x}{:08x}00000010{}\n".format(number, number, "6869" * 8))
    return HEAD + "".join(said) + "end\n"


def peak(program, path):
    """The peak memory in bytes of one run, by the command time, or None where that isn't installed."""
    command = shutil.which("time")
    if command is None:
        return None
    with open(path, "rb") as source:
        done = subprocess.run([command, "-f", "%M", program, "run"], stdin=source, stdout=subprocess.DEVNULL, stderr=subprocess.PIPE)
    return int(done.stderr.split()[-1]) * 1024


def main():
    program = sys.argv[1]
    before = None
    with tempfile.TemporaryDirectory() as folder:
        for lines in (16000, 32000, 64000):
            path = os.path.join(folder, "{}.pws".format(lines))
            with open(path, "w") as out:
                out.write(schedule(lines))
            size = os.path.getsize(path)
            time = least(RUNS, [program, "run"], path)
            memory = peak(program, path)
            ratio = "" if before is None else ", time {:.2f} of the one before".format(time / before)
            share = "not measured, as the command time isn't installed" if memory is None else "{:.1f} times the input".format(memory / size)
            print("{} lines, {} bytes: {:.0f} ms{}, memory {}".format(lines, size, time * 1000, ratio, share))
            before = time


main()
