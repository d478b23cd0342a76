"""Runs a program on growing numbers of requests, and prints ratios. usage: runner.py PROGRAM"""

import sys

from measure import least

RUNS = 5

# One round takes some milliseconds, about as long as the clock's step.
ROUNDS = 50


def main():
    program = sys.argv[1]
    for case in ("echo", "piled"):
        before = None
        for requests in (10000, 20000, 40000):
            time = least(RUNS, [program, case, str(requests), str(ROUNDS)]) / ROUNDS
            ratio = "" if before is None else ", {:.2f} of the one before".format(time / before)
            print("{}, {} requests: {:.2f} ms{}".format(case, requests, time * 1000, ratio))
            before = time


main()
