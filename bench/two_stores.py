#!/usr/bin/env python3
"""Times runs of two stores: sets on one key and on many, without a link and with one, and the report of many keys.

    python3 bench/two_stores.py

Prints, for each, the seconds (best of three), the greatest memory in use and the bytes of the report.
"""
from measure import best


def scenario(linked, keys, sets, shows):
    lines = ['{"do":"lab","kind":"stores"}', '{"do":"node","name":"a"}', '{"do":"node","name":"b"}']
    if linked:
        lines += ['{"do":"link","a":"a","b":"b"}', '{"do":"settle","show":"none"}']
    for n in range(sets):
        lines.append('{"do":"set","node":"a","key":"key-%d","version":%d,"hex":"%s"}' % (n % keys, n + 1, "5a" * 16))
    lines += ['{"do":"settle","show":"stores"}'] * shows
    return ("\n".join(lines) + "\n").encode()


def main():
    for linked in (False, True):
        for keys in (1, 512):
            for shows in (1, 100):
                seconds, memory, status, out = best(scenario(linked, keys, 1000, shows))
                print("%s, 1,000 sets on %d keys, shown %d times: %.3f s, %d MB, status %d, %d bytes of report" % (
                    "linked" if linked else "no link", keys, shows, seconds, memory, status, len(out)))


main()
