#!/usr/bin/env python3
"""Times full laboratories: grids and lines that come up, hellos at ticks, drains and metrics, and restarts.

    python3 bench/full.py

Prints, for each, the turns, the seconds (best of three), the turns a second, the microseconds a turn, the greatest
memory in use and the status, as `stores.py` does. No settle shows stores or routes.
"""
from stores import QUIET, link, nodes, show

LAB = '{"do":"lab","kind":"full"}'


def prefix(node, number=0):
    return '{"do":"advertise","node":"n%d","prefix":"10.%d.%d.0/24"}' % (node, node, number)


def grid_of(side, prefixes=1):
    lines = [LAB, *nodes(side * side)]
    for n in range(side * side):
        if (n + 1) % side:
            lines.append(link(n, n + 1))
        if n + side < side * side:
            lines.append(link(n, n + side))
    return lines + [prefix(n, p) for n in range(side * side) for p in range(prefixes)] + [QUIET]


def line_of(count):
    return [LAB, *nodes(count), *(link(n, n + 1) for n in range(count - 1)), QUIET]


def beside(idle):
    """Two linked nodes, and so many more without a link."""
    return [LAB, *nodes(2 + idle), link(0, 1), QUIET]


def ticks(count):
    lines = []
    for n in range(count):
        lines += ['{"do":"tick","to":%d}' % (1000 * (n + 1)), QUIET]
    return lines


def drains(count, node=0):
    lines = []
    for n in range(count):
        lines += ['{"do":"drain","node":"n%d","on":%s}' % (node, "false" if n % 2 else "true"), QUIET]
    return lines


def restarts(count, node=0):
    lines = []
    for n in range(count):
        lines += ['{"do":"restart","node":"n%d"}' % node, QUIET]
    return lines


def main():
    for side in (2, 4, 8):
        show("grid of %d comes up, a prefix each" % (side * side), grid_of(side))
    show("grid of 64 comes up, 30 prefixes each", grid_of(8, 30))
    show("line of 64 comes up", line_of(64))
    for count in (31, 310):
        show("grid of 64 comes up and takes %d ticks" % count, grid_of(8) + ticks(count))
    for side in (2, 4):
        show("grid of %d comes up and takes 310 ticks" % (side * side), grid_of(side) + ticks(310))
    for idle in (0, 30, 62):
        show("two nodes and %d without a link, 400 drains of one" % idle, beside(idle) + drains(400))
    for count in (20, 40, 80):
        show("grid of 64, %d drains of a corner, each with its settle" % count, grid_of(8) + drains(count))
    for count in (5, 10, 20):
        show("grid of 16, %d restarts of a corner" % count, grid_of(4) + restarts(count))


if __name__ == "__main__":
    main()
