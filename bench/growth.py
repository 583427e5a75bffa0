#!/usr/bin/env python3
"""Tells whether a step takes longer with what was done before: turns, synced keys and shown keys, in small runs and in great ones.

    python3 bench/growth.py
    python3 bench/growth.py OTHER

Prints, for each run, how many steps it has, the seconds that they take (best of nine, less those of the same run without
them) and the microseconds of each. With OTHER, another built program, it tells that one's beside them, run in turn with the
first, and the ratio of the two.
"""
import os
import sys

import measure
from stores import QUIET, line_of, sets
from syncs import restarts, two

SHOWN = '{"do":"settle","show":"stores"}'


def seconds(program, lines):
    data = ("\n".join(lines) + "\n").encode()
    measure.PROGRAM = program
    took, _, status, _ = measure.best(data, 3)
    if status != 0:
        sys.exit("a run ended with status %d" % status)
    return took


def show(programs, name, unit, count, lines, without):
    """The runs of all programs take turns, so that a machine that slows down slows all of them."""
    whole = [[] for _ in programs]
    base = [[] for _ in programs]
    for _ in range(3):
        for at, program in enumerate(programs):
            whole[at].append(seconds(program, lines))
            base[at].append(seconds(program, without))
    each = [1e6 * max(min(w) - min(b), 0) / count for w, b in zip(whole, base)]
    told = "  ".join("%7.2f us" % it for it in each)
    ratio = "  ratio %.2f" % (each[1] / each[0]) if len(each) > 1 and each[0] else ""
    print("%-58s %7d %-6s %s a %s%s" % (name, count, unit, told, unit[:-1], ratio), flush=True)


def main():
    programs = [measure.PROGRAM, *map(os.path.abspath, sys.argv[1:])]
    for keys in (1, 250):
        for count in (250, 1000, 4000):
            lines = line_of(16)
            # A value that is set at the end of the line takes a turn at each store and at each of the links between.
            show(programs, "line of 16, %d sets on %d keys" % (count, keys), "turns", count * 31, lines + sets(count, keys, 50), lines)
    for keys in (64, 128, 256, 512):
        lines = two(keys, [])
        show(programs, "two stores, %d keys, 100 restarts of one" % keys, "keys", keys * 100, lines + restarts([[1]] * 100), lines)
    for keys in (64, 128, 256, 512):
        lines = two(keys, [])
        more = ['{"do":"sync","node":"n0","link":0}', QUIET] * 400
        show(programs, "two stores, %d equal keys, 400 syncs" % keys, "keys", keys * 400, lines + more, lines)
    for times in (1, 10, 200):
        # Each restart of the second store appends one entry, and one more for each key that the full sync brings back.
        lines = two(500, restarts([[1]] * times))
        name = "two stores, one of %d entries, shown 300 times" % (501 * times + 500)
        show(programs, name, "keys", 2 * 500 * 300, lines + [SHOWN] * 301, lines + [SHOWN])


if __name__ == "__main__":
    main()
