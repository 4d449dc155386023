#!/usr/bin/env python3
"""charts.py DIR: the bench's charts, by oracle/py/gen.py from a fixed seed."""
import os, random, sys

sys.dont_write_bytecode = True
sys.path.insert(0, os.path.join(os.path.dirname(os.path.abspath(__file__)), '..', 'oracle', 'py'))
from gen import TRIANGLE, chart_of, delaunay, lattice_circle
from second import refusal


def uniform(rnd, n):
    P = set()
    while len(P) < n: P.add((rnd.randint(-10000, 10000), rnd.randint(-10000, 10000)))
    return sorted(P)


def inside(rnd, n):  # a hull of three: as many faces as n vertices can have
    P = {(-10000, -10000), (10000, -10000), (0, 10000)}
    while len(P) < n:
        x, y = rnd.randint(-9999, 9999), rnd.randint(-9999, 9999)
        if y + 10000 > 0 and 2 * abs(x) + y < 10000: P.add((x, y))
    return sorted(P)


def main():
    d = sys.argv[1]
    os.makedirs(d, exist_ok=True)
    rnd = random.Random(7)
    ring = sorted((11 * x, 11 * y) for x, y in lattice_circle(801125))[:128]
    sets = [('small', uniform(rnd, 12)), ('median', uniform(rnd, 50)), ('largest', inside(rnd, 128)), ('ring', ring)]
    sets += [('largest127', inside(rnd, 127)), ('ring127', ring[:127])]  # with room for one more
    open(os.path.join(d, 'triangle.txt'), 'w').write(TRIANGLE)
    for name, P in sets:
        t = chart_of(P, delaunay(P, rnd), [rnd.randint(0, 1000000) for _ in P], rnd).text()
        assert refusal(t) == 0, name
        open(os.path.join(d, name + '.txt'), 'wb').write(t)


main()
