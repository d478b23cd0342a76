"""Asks a large and a small store of evidence with a program, and prints ratios. usage: evidence.py PROGRAM"""

import sys

from measure import least

RUNS = 3

# How often each call is made, so that it takes much longer than filling the store varies.
TIMES = {"hear": {"one": 10000000, "all": 10000000}, "candidates": {"one": 20000, "all": 2000}}


def main():
    program = sys.argv[1]
    for call, times in TIMES.items():
        taken = {}
        for store, count in times.items():
            empty = least(RUNS, [program, store, call, "0"])
            full = least(RUNS, [program, store, call, str(count)])
            taken[store] = (full - empty) * 10000 / count
        print(
            "{}: {:.1f} ms of 15 groups, {:.1f} ms of one, {:.1f} times as long".format(
                call, taken["all"] * 1000, taken["one"] * 1000, taken["all"] / taken["one"]
            ),
            flush=True,
        )


main()
