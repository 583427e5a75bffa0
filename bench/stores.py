#!/usr/bin/env python3
"""Times runs of many stores: a grid, a line, small traffic beside idle stores, one message on a long way, and more sets.

    python3 bench/stores.py

Prints, for each, the turns, the seconds (best of three), the turns a second, the microseconds a turn, the greatest
memory in use and the status. The turns are counted in a run of its own with a trace; the timed runs have none.
"""
from measure import best, run

LAB = '{"do":"lab","kind":"stores"}'
QUIET = '{"do":"settle","show":"none"}'


def nodes(count, first=0):
    return ['{"do":"node","name":"n%d"}' % n for n in range(first, first + count)]


def link(a, b, number=0):
    return '{"do":"link","a":"n%d","b":"n%d","aif":"r%d-%d","bif":"l%d-%d"}' % (a, b, number, b, number, a)


def a_set(node, key, version, size=16):
    return '{"do":"set","node":"n%d","key":"key-%d","version":%d,"hex":"%s"}' % (node, key, version, "5a" * size)


def sets(count, keys, a_settle):
    """Sets at the first store, on so many keys in turn, with a settle behind each group of so many."""
    lines = []
    for n in range(count):
        lines.append(a_set(0, n % keys, n + 1))
        if (n + 1) % a_settle == 0:
            lines.append(QUIET)
    return lines


def line_of(count):
    return [LAB, *nodes(count), *(link(n, n + 1) for n in range(count - 1)), QUIET]


def grid_of(side):
    lines = [LAB, *nodes(side * side)]
    for n in range(side * side):
        if (n + 1) % side:
            lines.append(link(n, n + 1))
        if n + side < side * side:
            lines.append(link(n, n + side))
    return lines + [QUIET]


def contended(count, stores, a_settle):
    """Each key is set at several stores at once, so that the greatest originator's value stops the others on their way.

    A value that nothing stops takes 323 turns in a grid of 8 by 8; 2,000 of these would pass the 500,000 of a run.
    """
    lines = []
    for n in range(count):
        lines.append(a_set(stores[n % len(stores)], n // len(stores), 1))
        if (n + 1) % a_settle == 0:
            lines.append(QUIET)
    return lines


def beside(idle):
    """Two linked stores, and so many more in a ring of their own, with four links between neighbours."""
    lines = [LAB, *nodes(2 + idle), link(0, 1)]
    for n in range(idle):
        lines += [link(2 + n, 2 + (n + 1) % idle, number) for number in range(4)]
    return lines + [QUIET]


def show(name, lines):
    data = ("\n".join(lines) + "\n").encode()
    turns = run(data, ("--trace", "replay"))[3].count(b'"do":"turn"')
    seconds, memory, status, _ = best(data)
    print("%-62s %7d turns %7.3f s %9d a second %6.2f us a turn %4d MB status %d" % (
        name, turns, seconds, turns / seconds, seconds * 1e6 / max(turns, 1), memory, status), flush=True)


def main():
    show("grid of 64, 112 links, 2,000 sets on 500 keys at four", grid_of(8) + contended(2000, (0, 7, 56, 63), 100))
    show("grid of 64, 112 links, 1,500 sets on 500 keys at one store", grid_of(8) + sets(1500, 500, 100))
    show("line of 64, 63 links, 2,000 sets on 500 keys", line_of(64) + sets(2000, 500, 100))
    for idle in (0, 30, 62):
        show("two stores and %d idle ones, 9,000 sets in one settle" % idle, beside(idle) + sets(9000, 1, 9000))
    for idle in (0, 30, 62):
        show("two stores and %d idle ones, 8,000 sets in 800 settles" % idle, beside(idle) + sets(8000, 1, 10))
    show("line of 64, 900 sets in one settle", line_of(64) + sets(900, 1, 900))
    show("line of 64, 900 sets in 900 settles", line_of(64) + sets(900, 1, 1))
    for keys in (1, 500):
        for count in (250, 500, 1000, 2000):
            show("line of 64, %d sets on %d key%s" % (count, min(keys, count), "s" * (keys > 1)), line_of(64) + sets(count, keys, 50))


if __name__ == "__main__":
    main()
