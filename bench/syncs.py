#!/usr/bin/env python3
"""Times full syncs: in a grid of 64 stores whose links come up and whose stores restart, and between two stores.

    python3 bench/syncs.py
    python3 bench/syncs.py --hashing

Prints, for each, the turns, the seconds (best of three), the turns a second, the microseconds a turn, the greatest
memory in use and the status, as `stores.py` does. With `--hashing` it prints the share of the time that is spent hashing
values, for which it needs `perf`.
"""
import sys

from measure import share
from stores import LAB, QUIET, a_set, grid_of, link, nodes, show

SIDE = 8
STORES = range(SIDE * SIDE)
LINKS = 2 * SIDE * (SIDE - 1)

# Of the two ends of each link one is even and the other is odd.
EVEN = [n for n in STORES if (n // SIDE + n % SIDE) % 2 == 0]
ODD = [n for n in STORES if n not in EVEN]


def held(keys, size=16):
    """Sets at the first store. In the first phase a store takes them before it hears of its neighbours, so nothing is flooded."""
    return [a_set(0, key, 1, size) for key in range(keys)]


def grid(keys, size=16):
    """Every link comes up, and the keys are at one corner of the grid."""
    return grid_of(SIDE)[:-1] + held(keys, size) + [QUIET]


def restarts(phases):
    """For each list of stores, their restarts and a settle. Where all restarted at once, nobody would hold a key any more."""
    return [text for stores in phases for text in [*('{"do":"restart","node":"n%d"}' % n for n in stores), QUIET]]


def syncs(times):
    """A sync at the `a` end of every link, with a settle, so many times."""
    ends = [n for n in STORES for fits in ((n + 1) % SIDE, n + SIDE in STORES) if fits]
    once = ['{"do":"sync","node":"n%d","link":%d}' % (n, number) for number, n in enumerate(ends)]
    assert len(once) == LINKS
    return (once + [QUIET]) * times


def two(keys, more):
    return [LAB, *nodes(2), link(0, 1), *held(keys), QUIET, *more]


def hashing():
    for name, lines in (
        ("grid of 64 comes up, 512 keys of 16 bytes at one corner", grid(512)),
        ("grid of 64 comes up, 512 keys of 4,096 bytes at one corner", grid(512, 4096)),
        ("grid with 512 keys of 16, every other restarts, then the rest", grid(512) + restarts([EVEN, ODD])),
        ("grid with 512 keys of 1,536, the same", grid(512, 1536) + restarts([EVEN, ODD])),
        ("grid with 512 keys of 16 everywhere, 20 syncs on each link", grid(512) + syncs(20)),
        ("two stores, 512 equal keys, 900 syncs", two(512, ['{"do":"sync","node":"n0","link":0}', QUIET] * 900)),
    ):
        data = ("\n".join(lines) + "\n").encode()
        print("%-62s %5.1f %% of the time in hashing" % (name, share(data, ("sha2::", "kv_value::hash"))), flush=True)


def main():
    show("grid of 64 comes up, no keys", grid(0))
    show("grid of 64 comes up, 512 keys of 16 bytes at one corner", grid(512))
    show("grid of 64 comes up, 512 keys of 4,096 bytes at one corner", grid(512, 4096))
    show("grid with 512 keys of 16, every other restarts, then the rest", grid(512) + restarts([EVEN, ODD]))
    show("grid with 512 keys of 1,536, the same", grid(512, 1536) + restarts([EVEN, ODD]))
    show("grid with 512 keys of 16, one after another restarts", grid(512) + restarts([n] for n in STORES))
    show("grid with 512 keys of 16 everywhere, 20 syncs on each link", grid(512) + syncs(20))
    for keys in (64, 128, 256, 512):
        show("two stores, %d keys, 50 restarts" % keys, two(keys, restarts([[1]] * 50)))
    for keys in (64, 128, 256, 512):
        show("two stores, %d equal keys, 900 syncs" % keys, two(keys, ['{"do":"sync","node":"n0","link":0}', QUIET] * 900))


if __name__ == "__main__":
    if sys.argv[1:] == ["--hashing"]:
        hashing()
    else:
        main()
