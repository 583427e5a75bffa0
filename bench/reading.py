#!/usr/bin/env python3
"""Times the reading of large scenarios: 33,554,432 bytes in long lines, 500,000 short lines, and a fault on the last line.

    python3 bench/reading.py

Prints, for each, the bytes, the seconds (best of three), the greatest memory in use, how often that is the input, and
the answer. In each laboratory a forwarding agent fails, which isn't run yet: what is measured is reading alone.
"""
from measure import best

MOST = 33_554_432
A_TURN = '{"do":"turn","lane":0,"at":0}'


def declarations():
    lines = ['{"do":"lab","kind":"full"}']
    lines += ['{"do":"node","name":"n%d","faults":[1]}' % n for n in range(64)]
    for n in range(64):
        for d in range(4):
            lines.append('{"do":"link","a":"n%d","b":"n%d","aif":"r%d","bif":"l%d"}' % (n, (n + 1) % 64, d, d))
    return lines


def long_lines(share):
    """Sets of values of 4,096 bytes, up to this share of the greatest size."""
    lines = declarations()
    size = sum(len(line) + 1 for line in lines) + len(A_TURN) + 1
    n = 0
    while len(lines) < 9_999:
        line = '{"do":"set","node":"n%d","key":"key-%d","version":%d,"text":"%s"}' % (n % 64, n % 256, n + 1, "w" * 4096)
        if size + len(line) + 1 > MOST * share:
            break
        lines.append(line)
        size += len(line) + 1
        n += 1
    return lines + [A_TURN]


def many_sets(count):
    lines = declarations()
    lines += ['{"do":"set","node":"n%d","key":"key-%d","version":%d,"hex":"00"}' % (n % 64, n % 256, n + 1) for n in range(count)]
    return lines + [A_TURN]


def turns(count):
    return declarations() + ['{"do":"turn","lane":%d,"at":0}' % (n % 400) for n in range(count)]


def show(name, lines):
    data = ("\n".join(lines) + "\n").encode()
    seconds, memory, status, out = best(data)
    print("%-44s %10d bytes %7.3f s %5d MB (%.1f times) status %d %s" % (
        name, len(data), seconds, memory, memory * 2**20 / len(data), status, out.decode().strip()[:60]))


def main():
    show("half the size in long lines", long_lines(0.5))
    show("the whole size in long lines", long_lines(1))
    show("the same with a fault on its last line", long_lines(0.999) + ['{"do":"fly"}'])
    show("4,800 sets", many_sets(4_800))
    show("9,600 sets", many_sets(9_600))
    show("250,000 turns", turns(250_000))
    show("500,000 turns", turns(500_000))
    show("the same with a fault on its last line", turns(500_000) + ['{"do":"fly"}'])


main()
