"""Feeds streams of frames of growing size to a program in pieces, and prints ratios. usage: frames.py PROGRAM"""

import os
import sys
import tempfile

from measure import run

RUNS = 5
LENGTHS = (61, 1, 1000, 98304, 17, 20000)


def stream(path, size):
    """Writes frames of packets of several lengths, of at least so many bytes in all; how many frames."""
    written = frames = 0
    with open(path, "wb") as out:
        while written < size:
            length = LENGTHS[frames % len(LENGTHS)]
            out.write(length.to_bytes(4, "big") + bytes(length))
            written += 4 + length
            frames += 1
    return frames


def spent(program, path, piece, frames):
    """The processor time in seconds of one run, which tells how much it was fed."""
    with open(path, "rb") as source:
        time, told = run([program, str(piece)], source)
    if told != "packets {} bytes {}\n".format(frames, os.path.getsize(path)):
        sys.exit("the program wrote {!r}".format(told))
    return time


def main():
    program = sys.argv[1]
    with tempfile.TemporaryDirectory() as folder:
        path = os.path.join(folder, "stream")
        before = {}
        for mebibytes in (16, 32, 64):
            frames = stream(path, mebibytes << 20)
            for piece in (1, 100, 65536):
                least = min(spent(program, path, piece, frames) for _ in range(RUNS))
                ratio = ", time {:.2f} of the one before".format(least / before[piece]) if piece in before else ""
                print("{} MiB in pieces of {}: {:.0f} ms{}".format(mebibytes, piece, least * 1000, ratio))
                before[piece] = least


main()
