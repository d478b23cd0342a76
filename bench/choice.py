"""Runs a program on the worst and the plain list of view changes, and prints times. usage: choice.py PROGRAM"""

import sys

from measure import least

RUNS = 5


def main():
    program = sys.argv[1]
    for case, times in (("worst", 200), ("plain", 100000)):
        empty = least(RUNS, [program, case, "0"])
        full = least(RUNS, [program, case, str(times)])
        print("{}: {:.4f} ms a decision".format(case, (full - empty) * 1000 / times))


main()
