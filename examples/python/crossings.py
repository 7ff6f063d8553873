#!/usr/bin/env python3
"""Where a piece of an outline crosses a scan line: the recipe of docs/CHOOSING.md, as one would write it in a print engine.

  examples/python/crossings.py Y0 Y1 Y2 Y3 LINE     a cubic piece by its four control points' y, in dots; prints each t
"""
import math
import os
import struct
import subprocess
import sys

HERE = os.path.dirname(os.path.abspath(__file__))
LINES = os.path.join(HERE, '..', '..', 'tools', 'lines')
ILLINOIS, EPS, LIMIT = 2, 1e-12, 100  # the eps is both tolerances
LEAST = 1e-7  # dots: a leading term below it moves no point of the piece by more than that


def powers(y):
    """The piece as c3 t^3 + c2 t^2 + c1 t + c0, highest first, without the leading terms that are too small to see."""
    c = [y[3] - 3 * y[2] + 3 * y[1] - y[0], 3 * (y[2] - 2 * y[1] + y[0]), 3 * (y[1] - y[0]), y[0]]
    while len(c) > 1 and abs(c[0]) < LEAST:
        c = c[1:]
    return c


def value(c, t):
    total = 0.0
    for term in c:
        total = total * t + term
    return total


def extrema(c):
    """Where the piece turns in y, in rising order: the derivative's zeros inside of 0 to 1."""
    d = [term * (len(c) - 1 - i) for i, term in enumerate(c[:-1])]
    if len(d) == 3:
        under = d[1] * d[1] - 4 * d[0] * d[2]
        q = -(d[1] + math.copysign(math.sqrt(max(under, 0.0)), d[1])) / 2
        zeros = [] if under < 0 or q == 0 else [q / d[0], d[2] / q]
    else:
        zeros = [-d[1] / d[0]] if len(d) == 2 else []
    return sorted({t for t in zeros if 0 < t < 1})


def ends_and_calls(y, line):
    """The ends that lie on the line, and the calls that find the other crossings."""
    c = powers(y)
    cuts = [(0.0, y[0])] + [(t, value(c, t)) for t in extrema(c)] + [(1.0, y[3])]
    ends = [t for t, height in cuts if height == line]
    monic = [term / c[0] for term in c[1:-1]] + [(c[-1] - line) / c[0]] if len(c) > 1 else []
    calls = [call(monic, p[0], q[0]) for p, q in zip(cuts, cuts[1:]) if p[1] < line < q[1] or q[1] < line < p[1]]
    return ends, calls if monic else []


def bits(x):
    return struct.pack('>d', x).hex()


def double(word):
    return struct.unpack('>d', bytes.fromhex(word))[0]


def call(coefficients, begin, end):
    words = [str(ILLINOIS), str(len(coefficients))] + [bits(x) for x in coefficients + [begin, end, EPS, EPS]]
    return ' '.join(words + [str(LIMIT)])


def ask(calls):
    """The answers' kinds and roots; a refusal has the kind 10 and its number, and no root."""
    if not calls:
        return []
    run = subprocess.run([LINES], input='\n'.join(calls) + '\n', stdout=subprocess.PIPE, text=True, check=True)
    answers = [answer.split(' ') for answer in run.stdout.split('\n')[:len(calls)]]
    return [(int(a[0]), double(a[1]) if int(a[0]) < 10 else None) for a in answers]


def main(words):
    if len(words) != 5:
        print(__doc__.strip())
        return 2
    *y, line = map(float, words)
    ends, calls = ends_and_calls(y, line)
    answers = ask(calls)
    for t in sorted(ends + [root for kind, root in answers if kind < 10]):
        print(t)
    return 0 if all(kind < 10 for kind, _ in answers) else 1


if __name__ == '__main__':
    sys.exit(main(sys.argv[1:]))
