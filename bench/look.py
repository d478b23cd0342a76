"""Gives a program lines of texts, and prints how many it answers in a second, and ratios. usage: look.py PROGRAM"""

import os
import sys
import tempfile

from measure import least

RUNS = 3

# An envelope so short that 200,000 lines of it are within the 64 MiB of an input.
ENVELOPE = (
    '<Envelope xmlns="http://www.w3.org/2003/05/soap-envelope"><Header>'
    '<Action xmlns="http://www.w3.org/2005/08/addressing">urn:tea</Action></Header><Body/></Envelope>'
)
TEXTS = {
    "envelope": ENVELOPE.encode().hex(),
    "soap": ENVELOPE.encode().hex(),
    "packet": "505753010000010000000f0100000001000000010000000268690100000000000000000000000000000000000000000000000000000000000000000000",
}


def main():
    program = sys.argv[1]
    for kind, text in TEXTS.items():
        before = None
        for lines in (100000, 200000):
            with tempfile.NamedTemporaryFile(mode="w", delete=False) as source:
                source.write((text + "\n") * lines)
            time = least(RUNS, [program, kind, "--lines"], source.name)
            os.unlink(source.name)
            ratio = "" if before is None else ", {:.2f} of the one before".format(time / before)
            print("{}, {} lines: {:.0f} lines a second{}".format(kind, lines, lines / time, ratio))
            before = time


main()
