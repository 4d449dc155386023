#!/usr/bin/env python3
"""Properties that the proofs are about, tested on every query of a suite's accepted charts:
    props.py DIR
 tree      a face opened through h has q strictly right of h (or on h, the located edge) and strictly left of its other two;
 count     edges listed = faces opened + 2, each half-edge once; every one has its own face opened and its partner's not;
 ring      each listed edge ends where the next starts (the last one: where the first starts), counterclockwise about q, and passes no vertex
           twice;
 sibson    the faces opened are all the faces whose circle strictly holds q, and no others (CR 11);
 steps     a turn goes through opened faces alone and takes as many steps as there are at most, and all turns 3 * opened;
 home      exactly one of vertex, open edge, strict face, outside (CR 2): of these loads, and of others, on charts that 6 to 10 let pass.
           The others are every vertex, the lattice points of every edge next to its ends and its middle, the steps beside them, and places
           on the lines of hull edges beyond their ends, on the grid or off it. On accepted charts those on the grid are tested for all of the above."""
import os, sys
from math import gcd

sys.dont_write_bytecode = True  # nothing is left in the source tree
from second import *


def home(c, q, st):
    homes = [('vertex', i) for i in range(len(c.v)) if c.at(i) == q]
    for h in range(0, len(c.h), 2):
        a, b = c.frm(h), c.to(h)
        if side(a, b, q) == 0 and 0 < (q[0] - a[0]) * (b[0] - a[0]) + (q[1] - a[1]) * (b[1] - a[1]) < (b[0] - a[0]) ** 2 + (b[1] - a[1]) ** 2:
            homes.append(('edge', h))
    homes += [('face', f) for f in range(1, len(c.f)) if all(side(c.frm(h), c.to(h), q) > 0 for h in c.edges_of(f))]
    out = any(c.face(h) == 0 and side(c.frm(h), c.to(h), q) > 0 for h in range(len(c.h)))
    assert len(homes) + out == 1, ('home', q, homes, out)
    kind = 'outside' if out else homes[0][0]
    if kind == 'edge': kind = 'hull edge' if 0 in (c.face(homes[0][1]), c.face(homes[0][1] ^ 1)) else 'inner edge'
    st[kind] = st.get(kind, 0) + 1


def rim_loads(c):
    """Places at the rims of the three homes, seen from the chart alone."""
    at = {c.at(i) for i in range(len(c.v))}
    for h in range(0, len(c.h), 2):
        a, b = c.frm(h), c.to(h)
        g = gcd(b[0] - a[0], b[1] - a[1])
        dx, dy = (b[0] - a[0]) // g, (b[1] - a[1]) // g
        on = {1, g // 2, g - 1} | ({-1, g + 1, 2 * g, -3000} if 0 in (c.face(h), c.face(h ^ 1)) else set())
        for k in on:
            x, y = a[0] + k * dx, a[1] + k * dy
            at |= {(x, y), (x + 1, y), (x - 1, y), (x, y + 1), (x, y - 1)}
    return at


def check(c, q, st):
    home(c, q, st)
    kind, n = locate(c, q)
    if kind not in ('face', 'edge') or (kind == 'edge' and 0 in (c.face(n), c.face(n ^ 1))): return
    opened, es = search(c, q, kind, n)
    holds = {f for f in range(1, len(c.f)) if circle(*c.corners(f), q) > 0}
    assert opened == holds, ('sibson', q)
    k = len(holds)
    border = {h for h in range(len(c.h)) if c.face(h) in holds and c.face(h ^ 1) not in holds}
    assert sorted(es) == sorted(border) and len(es) == k + 2
    for i, e in enumerate(es):
        assert c.org(e ^ 1) == c.org(es[(i + 1) % len(es)])
        assert side(c.frm(e), c.to(e), q) > 0
    assert len({c.org(e) for e in es}) == len(es)
    for f in holds:
        right = [h for h in c.edges_of(f) if side(c.frm(h), c.to(h), q) < 0]
        left = [h for h in c.edges_of(f) if side(c.frm(h), c.to(h), q) > 0]
        assert len(left) >= 2 and len(right) == (0 if (kind == 'face' and f == n) or (kind == 'edge' and f in (c.face(n), c.face(n ^ 1))) else 1)
    steps, cur = 0, es[-1]
    for stop in es:
        first = steps
        while True:
            steps += 1
            assert c.face(cur) in holds and steps - first <= k
            cur = c.nxt(cur) ^ 1
            if cur == stop ^ 1: break
        cur = stop
    assert steps == 3 * k
    st['inside'] = st.get('inside', 0) + 1
    st['opened'] = st.get('opened', 0) + k
    if any(circle(*c.corners(f), q) == 0 for f in range(1, len(c.f))): st['on a circle'] = st.get('on a circle', 0) + 1
    if kind == 'edge' and circle(*c.corners(c.face(n)), c.frm(c.prv(n ^ 1))) == 0: st['edge of four on a circle'] = st.get('edge of four on a circle', 0) + 1
    counted, weights = natural(c, q)
    assert counted == k
    st['minus zero weights'] = st.get('minus zero weights', 0) + sum(1 for _, w in weights if w == 0 and math.copysign(1, w) < 0)
    st['negative weights'] = st.get('negative weights', 0) + sum(1 for _, w in weights if w < 0)


if __name__ == '__main__':
    sys.setrecursionlimit(10000)
    st = {}
    d = sys.argv[1]
    for name in sorted(os.listdir(d)):
        p = os.path.join(d, name)
        if not os.path.exists(p + '/chart.txt'): continue
        b = open(p + '/chart.txt', 'rb').read()
        n = refusal(b)
        if n not in (0, 11): continue
        c = parse(b)[1]
        key = 'accepted' if n == 0 else 'met by 11 alone'
        st[key] = st.get(key, 0) + 1
        if n == 0 and all(any(c.face(h) == 0 and c.org(h) == i for h in range(len(c.h))) for i in range(len(c.v))):
            st['all on the hull'] = st.get('all on the hull', 0) + 1
        for q in rim_loads(c): (check if n == 0 and on_grid(q) else home)(c, q, st)
        if n or not os.path.exists(p + '/queries.txt'): continue
        n = list(map(int, open(p + '/queries.txt').read().split()))
        for q in zip(n[::2], n[1::2]):
            if on_grid(q): check(c, q, st)
    print(st, 'all properties hold')
