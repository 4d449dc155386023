#!/usr/bin/env python3
"""How good is a suite? Each mutant of second.py makes one mistake that a port could make; the suite must notice it.
Equivalent, so alive for good: 'segment open at one end only' (the vertex at q comes first); '11 locally only' (Delaunay's lemma:
with 7 to 10, no vertex inside a neighbour's circle means none inside any); '7 without the last half-edge', '10 without ..' and
'11 without ..' (what they refuse comes in pairs: with 7 for all half-edges but one, it holds for that one; a reflex corner of the hull
offends two half-edges by two vertices; an edge that 11 refuses offends two faces by two vertices); 'written: 129 vertices' (the writer is
lent no more rows than a file has); '11 by edges' (the same lemma) and '.., the outer face not left out' (what it meets beyond the rim is a
vertex too, and one inside a circle is refused rightly). No test shows these, a proof does. A mutant that breaks off is noticed too.

    mutants.py [--only KINDS] DIR [SKIP]   DIR: a suite with the answers of the Rust oracle; SKIP: leave out the first mutants;
                                           --only: by these kinds of lines alone
"""
import contextlib, io, os, sys, types

sys.dont_write_bytecode = True  # nothing is left in the source tree
from second import take_only

here = os.path.dirname(os.path.abspath(__file__))
SRC = open(os.path.join(here, 'second.py')).read()

M = [
    ('on the circle is inside', "circle(c.frm(c.prv(h)), c.frm(h), c.to(h), q) > 0", "circle(c.frm(c.prv(h)), c.frm(h), c.to(h), q) >= 0"),
    ('line beyond the edge is the edge', "if 0 < d < (b[0] - a[0]) ** 2 + (b[1] - a[1]) ** 2:", "if True:"),
    ('segment open at one end only', "if 0 < d < (b[0]", "if 0 <= d < (b[0]"),
    ('hull pair reversed', "return 'ok', 0, [n, n ^ 1]", "return 'ok', 0, [n ^ 1, n]"),
    ('corners from the adjacent edge', "return [self.prv(a), a, self.nxt(a)]", "return [a, self.nxt(a), self.prv(a)]"),
    ('start edges not reversed', "for h in reversed(c.edges_of(n))", "for h in c.edges_of(n)"),
    ('inspection order', "            visit(c.prv(h) ^ 1)  # the one pushed last is looked at first\n            visit(c.nxt(h) ^ 1)", "            visit(c.nxt(h) ^ 1)\n            visit(c.prv(h) ^ 1)"),
    ('list not reversed', "out[::-1]", "out"),
    ('edge starts swapped', "starts = [n, n ^ 1]", "starts = [n ^ 1, n]"),
    ('start face not counted', "return 'ok', len(opened), edges", "return 'ok', len(opened) - (kind == 'face'), edges"),
    ('hull edge opened as an inner one', "if kind == 'edge' and 0 in (c.face(n), c.face(n ^ 1)):", "if kind == 'edge' and c.face(n) == 0:"),
    ('two weights by 1-(1-rel)', "(c.org(h ^ 1), rel)]", "(c.org(h ^ 1), 1.0 - (1.0 - rel))]"),
    ('two weights swapped', "[(c.org(h), 1.0 - rel), (c.org(h ^ 1), rel)]", "[(c.org(h ^ 1), rel), (c.org(h), 1.0 - rel)]"),
    ('third weight 1-(l1+l2)', "1.0 - l1 - l2", "1.0 - (l1 + l2)"),
    ('third weight by its own area', "1.0 - l1 - l2", "div(float((x2-x1)*(q[1]-y1)-(y2-y1)*(q[0]-x1)), det)"),
    ('centre by division', "nx * inv + float(v0[0]), ny * inv + float(v0[1])", "nx / float(d) + float(v0[0]), ny / float(d) + float(v0[1])"),
    ('cell corners swapped', "centre(rel(c.to(h)), rel(c.frm(h)), (0, 0))", "centre(rel(c.frm(h)), rel(c.to(h)), (0, 0))"),
    ('cell not about the query', "centre(rel(c.to(h)), rel(c.frm(h)), (0, 0))", "centre((0, 0), rel(c.to(h)), rel(c.frm(h)))"),
    ('areas summed together', "pos, neg = pos + last[0] * m[1], neg + last[1] * m[0]", "pos = pos + (last[0] * m[1] - last[1] * m[0])"),
    ('weights: the neighbours counted as opened', "return (e[1], shares(c, q, e[2])) if", "return (len(e[2]), shares(c, q, e[2])) if"),
    ('weights by the inverse', "return [(v, div(a, total)) for v, a in areas]", "return [(v, a * div(1.0, total)) for v, a in areas]"),
    ('area not signed', "area = pos - neg", "area = abs(pos - neg)"),
    ('gradient loses -0', "return -float(s[0]) / float(s[2]), -float(s[1]) / float(s[2])", "return 0.0 - float(s[0]) / float(s[2]), 0.0 - float(s[1]) / float(s[2])"),
    ('gradient takes every normal', "if n[2] > 0: s", "if True: s"),
    ('gradient clockwise', "        h = c.prv(h) ^ 1\n        assert", "        h = c.nxt(h ^ 1)\n        assert"),
    ('gradient without the wrap', "for k, p in enumerate(ring):", "for k, p in enumerate(ring[:-1]):"),
    ('alpha simplified', "alpha = alpha + cw * r", "alpha = alpha + x"),
    ('zeta regrouped', "zeta = h + (float(dx) * gx + float(dy) * gy)", "zeta = h + float(dx) * gx + float(dy) * gy"),
    ('sum regrouped', "return div(alpha * s0 + beta * s1, alpha + beta)", "return div(alpha * s0, alpha + beta) + div(beta * s1, alpha + beta)"),
    ('diff turned', "dx, dy = q[0] - c.v[v][0], q[1] - c.v[v][1]", "dx, dy = c.v[v][0] - q[0], c.v[v][1] - q[1]"),
    ('charge to even', "return True, math.floor(f + Fraction(1, 2))", "return True, round(f)"),
    ('charge down', "return True, math.floor(f + Fraction(1, 2))", "return True, max(0, math.floor(f))"),
    ('negative value charged', "if f < Fraction(-1, 2) or", "if f < Fraction(-1) or"),
    ('highest outer half-edge', "    for h in range(len(c.h)):\n        if c.face(h) == 0 and side(c.frm(h), c.to(h), q) > 0: return 'outside', h", "    for h in reversed(range(len(c.h))):\n        if c.face(h) == 0 and side(c.frm(h), c.to(h), q) > 0: return 'outside', h"),
    ('on the hull line is outside', "if c.face(h) == 0 and side(c.frm(h), c.to(h), q) > 0: return", "if c.face(h) == 0 and side(c.frm(h), c.to(h), q) >= 0: return"),
    ('length before counts', "    if counts_refused(nv, nh, nf):", "    if len(b) != 25 + 33 * nv + 33 * nh + 9 * nf:\n        return 3, None\n    if counts_refused(nv, nh, nf):"),
    ('128 vertices are too many', "nv > 128", "nv > 127"),
    ('129 vertices', "nv > 128", "nv > 129"),
    ('odd half-edges', "nh % 2 or ", ""),
    ('756 half-edges are too many', "nh > 756", "nh > 755"),
    ('253 faces', "nf > 252", "nf > 253"),
    ('252 faces are too many', "nf > 252", "nf > 251"),
    ('room after length', "    if room is not None and room < nh:\n        return 2, None\n    if len(b) != 25 + 33 * nv + 33 * nh + 9 * nf:\n        return 3, None", "    if len(b) != 25 + 33 * nv + 33 * nh + 9 * nf:\n        return 3, None\n    if room is not None and room < nh:\n        return 2, None"),
    ('room one short', "room < nh", "room <= nh"),
    ('-0 allowed', " or (neg and n == 0)", ""),
    ('leading zeros allowed', "if str(n).encode() != d or", "if"),
    ('line end not tested', "or line[-1] != 10", ""),
    ('coordinate 10,001', "abs(x) > GRID", "abs(x) > GRID + 1"),
    ('coordinate 10,000 refused', "abs(y) > GRID or z", "abs(y) >= GRID or z"),
    ('value 1,000,000 refused', "z > 1000000", "z >= 1000000"),
    ('value 1,000,001', "z > 1000000", "z > 1000001"),
    ('number equal to its count', "ok = lambda n, m: 0 <= n < m", "ok = lambda n, m: 0 <= n <= m"),
    ('links: next-start', "bad.add('next-start')", "pass"),
    ('links: same-origin', "bad.add('same-origin')", "pass"),
    ('links: prev and next', "if c.prv(n) != h: bad.add('prev-of-next')\n        if c.nxt(p) != h: bad.add('next-of-prev')", "pass"),
    ('links: next-face', "bad.add('next-face')", "pass"),
    ('links: three-nexts', "bad.add('three-nexts')", "pass"),
    ('links: face-edges', "bad.add('face-edges')", "pass"),
    ('links: out-start', "bad.add('out-start')", "pass"),
    ('links: two-outer', "bad.add('two-outer')", "pass"),
    ('links: adjacent-face', "bad.add('adjacent-face')", "pass"),
    ('links: three nexts outside too', "        if c.face(h) != 0:\n            if c.nxt(c.nxt(n)) != h: bad.add('three-nexts')", "        if c.nxt(c.nxt(n)) != h: bad.add('three-nexts')\n        if c.face(h) != 0:"),
    ('links: over-strict, one ring per vertex', "    for i, a in enumerate(c.f):\n        if c.face(a) != i", "    for i, v in enumerate(c.v):\n        k, s = 0, v[3]\n        while k <= len(c.h):\n            k, s = k + 1, c.prv(s) ^ 1\n            if s == v[3]: break\n        if k != sum(1 for h in c.h if h[0] == i): bad.add('ring')\n    for i, a in enumerate(c.f):\n        if c.face(a) != i"),
    ('8 not tested', "if len(set((v[0], v[1]) for v in c.v)) < nv: return 8", "pass"),
    ('9 allows a straight face', "if side(*c.corners(f)) <= 0: return 9", "if side(*c.corners(f)) < 0: return 9"),
    ('9 after 10', "        if side(*c.corners(f)) <= 0: return 9\n", "        if side(*c.corners(f)) <= 0 and not any(side(c.frm(h), c.to(h), c.at(i)) > 0 for h in range(nh) if c.face(h) == 0 for i in range(nv)): return 9\n"),
    ('10 not tested', "for i in range(nv)): return 10", "for i in range(0)): return 10"),
    ('10 counts on the line', "any(side(c.frm(h), c.to(h), c.at(i)) > 0 for i in range(nv)): return 10", "any(side(c.frm(h), c.to(h), c.at(i)) >= 0 and i not in (c.org(h), c.org(h ^ 1)) for i in range(nv)): return 10"),
    ('11 locally only', "any(circle(*k, c.at(i)) > 0 for i in range(nv)): return 11", "any(c.face(h ^ 1) != 0 and circle(*k, c.frm(c.prv(h ^ 1))) > 0 for h in c.edges_of(f)): return 11"),
    ('11 not tested', "if any(circle(*k, c.at(i)) > 0 for i in range(nv)): return 11", "pass"),
    ('11 counts on the circle', "any(circle(*k, c.at(i)) > 0 for i in range(nv)): return 11", "any(circle(*k, c.at(i)) >= 0 and c.at(i) not in k for i in range(nv)): return 11"),
    ('6 without the last vertex', "for x, y, z, o in c.v:", "for x, y, z, o in c.v[:-1]:"),
    ('6 without the last half-edge', "for o, n, p, f in c.h:", "for o, n, p, f in c.h[:-1]:"),
    ('6 without the last face', "for a in c.f:", "for a in c.f[:-1]:"),
    ('6 allows negative numbers', "ok = lambda n, m: 0 <= n < m", "ok = lambda n, m: n < m"),
    ('6 allows negative values', "or z < 0 or z > 1000000", "or z > 1000000"),
    ('7 without the last half-edge', "    for h in range(len(c.h)):\n        n, p", "    for h in range(len(c.h) - 1):\n        n, p"),
    ('7 without the last vertex', "    for i, v in enumerate(c.v):\n        if c.org(v[3])", "    for i, v in enumerate(c.v[:-1]):\n        if c.org(v[3])"),
    ('7 without the last face', "for i, a in enumerate(c.f):", "for i, a in enumerate(c.f[:-1]):"),
    ('7 without the outer face', "        if c.face(a) != i: bad", "        if i and c.face(a) != i: bad"),
    ('partner always h + 1', "        if c.org(n) != c.org(h ^ 1): bad", "        if c.org(n) != c.org((h + 1) % len(c.h)): bad"),
    ('8 without the last vertex', "if len(set((v[0], v[1]) for v in c.v)) < nv:", "if len(set((v[0], v[1]) for v in c.v[:-1])) < nv - 1:"),
    ('9 without the last face', "    for f in range(1, nf):\n        if side", "    for f in range(1, nf - 1):\n        if side"),
    ('9 without the first inner face', "    for f in range(1, nf):\n        if side", "    for f in range(2, nf):\n        if side"),
    ('10 without the last half-edge', "    for h in range(nh):\n        if c.face(h) == 0 and any", "    for h in range(nh - 1):\n        if c.face(h) == 0 and any"),
    ('10 without the last vertex', "c.at(i)) > 0 for i in range(nv)): return 10", "c.at(i)) > 0 for i in range(nv - 1)): return 10"),
    ('11 without the last face', "    for f in range(1, nf):\n        k = c.corners", "    for f in range(1, nf - 1):\n        k = c.corners"),
    ('11 without the last vertex', "c.at(i)) > 0 for i in range(nv)): return 11", "c.at(i)) > 0 for i in range(nv - 1)): return 11"),
    ('splice keeps the count', "self.retired + self.wear[sec], 0, 0", "self.retired + self.wear[sec], 0, self.bends[sec]"),
    ('splice drops the wear', "self.retired + self.wear[sec], 0, 0", "self.retired, 0, 0"),
    ('splice with x, y, method', "if (x, y, m) != (0, 0, 0): return no(12)", "pass"),
    ('splice checked for the method', "        if kind == 2:\n            if (x", "        if m not in (1, 2, 3): return no(12)\n        if kind == 2:\n            if (x"),
    ('13 before 12', "        if m not in (1, 2, 3): return no(12)\n        if not on_grid((x, y)): return no(13)", "        if not on_grid((x, y)): return no(13)\n        if m not in (1, 2, 3): return no(12)"),
    ('17 without retired wear', "if sum(self.wear) + self.retired + n > FULL", "if sum(self.wear) + n > FULL"),
    ('17 at the limit itself', "self.retired + n > FULL", "self.retired + n >= FULL"),
    ('17 by the section only', "if sum(self.wear) + self.retired + n > FULL", "if self.wear[sec] + self.retired + n > FULL"),
    ('17 without the count', " or self.bends[sec] == FULL: return", ": return"),
    ('17 before 16', "        ok, n = charge(v)\n        if not ok: return no(n)\n        if sum", "        ok, n = charge(v)\n        if self.bends[sec] == FULL: return no(17)\n        if not ok: return no(n)\n        if sum"),
    ('1 wraps in 64 bits', "sum(wear) + retired > FULL", "(sum(wear) + retired) % 2 ** 64 > FULL"),
    ('1 forgets the counts past the end', " or any(cnt[s:])", ""),
    ('1 after 2', "    elif len(ent) % 5 or room < len(ent) // 5: r = 2\n", "    if len(ent) % 5 or room < len(ent) // 5: r = 2\n    elif not 1 <= s <= 16 or sum(wear) + retired > FULL or max(cnt) > FULL or any(wear[s:]) or any(cnt[s:]): r = 1\n"),
    ('2 after the chart', "    elif len(ent) % 5 or room < len(ent) // 5: r = 2\n    else: r = refusal(b)", "    else: r = refusal(b) or (2 if len(ent) % 5 or room < len(ent) // 5 else 0)"),
    ('list: each batch on the first book', "        out += one_batch(t, b[", "        out += one_batch(Tally(s, retired, [w for w, n in rows], [n for w, n in rows]), b["),
    ('list: never a damaged chart', "b[:max(0, len(b) - cut)]", "b"),
    ('list: ends at a refused batch', "    while lines[at]:", "    while lines[at] and 'refused' not in out:"),
    ('log: count before length', "        if len(log) % 41: n = 3\n        elif len(log) > 41 * 512: n = 4", "        if len(log) > 41 * 512: n = 4\n        elif len(log) % 41: n = 3"),
    ('written: 18 before 11', "    if n: return n, 0\n    t = c.text()\n    if len(lent) < len(t): return 18, 0\n", "    t = c.text()\n    if n and n < 11: return n, 0\n    if len(lent) < len(t): return 18, 0\n    if n: return n, 0\n"),
    ('written: 18 before 6', "    if n: return n, 0\n    t = c.text()\n    if len(lent) < len(t): return 18, 0\n", "    t = c.text()\n    if len(lent) < len(t): return 18, 0\n    if n: return n, 0\n"),
    ('written: room one short', "len(lent) < len(t)", "len(lent) <= len(t)"),
    ('written: room not tested', "    if len(lent) < len(t): return 18, 0\n    lent[:len(t)] = t\n", "    lent[:len(t)] = t[:len(lent)]\n"),
    ('written: before the room is tested', "    if len(lent) < len(t): return 18, 0\n    lent[:len(t)] = t\n", "    lent[:len(t)] = t[:len(lent)]\n    if len(lent) < len(t): return 18, 0\n"),
    ('written: spaces past the text', "    lent[:len(t)] = t\n", "    lent[:] = t.ljust(len(lent))\n"),
    ('written: faces by four', "if len(vs) % 4 or len(hs) % 4: return 2, 0", "if len(vs) % 4 or len(hs) % 4 or len(fs) % 4: return 2, 0"),
    ('written: vertices not by four', "if len(vs) % 4 or len(hs) % 4: return 2, 0", "if len(hs) % 4: return 2, 0"),
    ('written: half-edges not by four', "if len(vs) % 4 or len(hs) % 4: return 2, 0", "if len(vs) % 4: return 2, 0"),
    ('written: 4 before 2', "    if len(vs) % 4 or len(hs) % 4: return 2, 0\n    if counts_refused(len(vs) // 4, len(hs) // 4, len(fs)): return 4, 0\n", "    if counts_refused(len(vs) // 4, len(hs) // 4, len(fs)): return 4, 0\n    if len(vs) % 4 or len(hs) % 4: return 2, 0\n"),
    ('written: 4 not tested', "if counts_refused(len(vs) // 4, len(hs) // 4, len(fs)): return 4, 0", "pass"),
    ('written: 6 before 4', "    if counts_refused(len(vs) // 4, len(hs) // 4, len(fs)): return 4, 0\n", "    if counts_refused(len(vs) // 4, len(hs) // 4, len(fs)) and max(hs[3::4]) < len(fs) and max(hs[::4]) < len(vs) // 4: return 4, 0\n"),
    ('written: two vertices are enough', "if counts_refused(len(vs) // 4, len(hs) // 4, len(fs)):", "if counts_refused(max(3, len(vs) // 4), len(hs) // 4, len(fs)):"),
    ('written: one face is enough', "if counts_refused(len(vs) // 4, len(hs) // 4, len(fs)):", "if counts_refused(len(vs) // 4, len(hs) // 4, max(2, len(fs))):"),
    ('written: an odd half-edge is let pass', "if counts_refused(len(vs) // 4, len(hs) // 4, len(fs)):", "if counts_refused(len(vs) // 4, len(hs) // 8 * 2, len(fs)):"),
    ('written: 129 vertices', "if counts_refused(len(vs) // 4, len(hs) // 4, len(fs)):", "if counts_refused(min(128, len(vs) // 4), len(hs) // 4, len(fs)):"),
    ('written: tables not checked', "    if n: return n, 0\n    t = c.text()\n", "    t = c.text()\n"),
    ('written: 11 not tested', "    if n: return n, 0\n    t = c.text()\n", "    if n and n < 11: return n, 0\n    t = c.text()\n"),
    ('written: the length of the buffer', "return 0, len(t)\n", "return 0, len(lent)\n"),
    ('written: negative half-edge numbers as 0', "c = Chart(rows(vs), rows(hs), fs)", "c = Chart(rows(vs), rows([max(0, n) for n in hs]), fs)"),
    ('written: negative face numbers as 0', "c = Chart(rows(vs), rows(hs), fs)", "c = Chart(rows(vs), rows(hs), [max(0, n) for n in fs])"),
    ('written: sign in the first column', "''.join('%8d' % n for n in r)", "''.join('-%7d' % -n if n < 0 else '%8d' % n for n in r)"),
    ('written: no sign', "''.join('%8d' % n for n in r)", "''.join('%8d' % abs(n) for n in r)"),
    ('written: zeros for spaces', "''.join('%8d' % n for n in r)", "''.join('%08d' % n for n in r)"),
    ('written: left-justified', "''.join('%8d' % n for n in r)", "''.join('%-8d' % n for n in r)"),
    ('written: six digits', "''.join('%8d' % n for n in r)", "''.join('%8d' % (n % 1000000 if n > 0 else n) for n in r)"),
    ('log: 512 are too many', "len(log) > 41 * 512", "len(log) >= 41 * 512"),
]

# 11 across each edge, as a port may test it after 7 to 10, and mistakes in that
FACES = """    for f in range(1, nf):
        k = c.corners(f)
        if any(circle(*k, c.at(i)) > 0 for i in range(nv)): return 11
"""
EDGES = """    for h in range(0, nh, 2):
        if c.face(h) and c.face(h ^ 1) and circle(c.frm(h), c.to(h), c.frm(c.prv(h)), c.frm(c.prv(h ^ 1))) > 0: return 11
"""
TEN = """    for h in range(nh):
        if c.face(h) == 0 and any(side(c.frm(h), c.to(h), c.at(i)) > 0 for i in range(nv)): return 10
"""
RIM = "for r in [{c.org(e) for e in range(nh) if c.face(e) == 0}]"
M += [('11 by edges' + name, FACES, EDGES.replace(old, new)) for name, old, new in [
    ('', "return 11", "return 11"),
    (', the outer face not left out', "c.face(h) and c.face(h ^ 1) and ", ""),
    (': the own corner', "c.frm(c.prv(h ^ 1))", "c.frm(c.prv(h))"),
    (': an end of the edge', "c.frm(c.prv(h ^ 1))", "c.frm(c.nxt(h ^ 1))"),
    (': on the circle', "> 0: return", ">= 0: return"),
    (': clockwise', "c.frm(h), c.to(h), c.frm", "c.to(h), c.frm(h), c.frm"),
    (': a third of the half-edges', "range(0, nh, 2)", "range(0, nh // 3 * 2, 2)"),
    (': half-edge k for edge k', "range(0, nh, 2)", "range(nh // 2)"),
    (': every second edge', "range(0, nh, 2)", "range(0, nh, 4)"),
    (': as many edges as faces', "range(0, nh, 2)", "range(0, 2 * nf, 2)"),
    (': 256 edges', "range(0, nh, 2)", "range(0, min(nh, 512), 2)"),
    (': without the last edge', "range(0, nh, 2)", "range(0, nh - 2, 2)"),
    (': without the first edge', "range(0, nh, 2)", "range(2, nh, 2)"),
    (': ends at the first edge of the rim', "        if c.face(h) and c.face(h ^ 1) and ", "        if 0 in (c.face(h), c.face(h ^ 1)): break\n        if "),
    (': ends at the first outer half-edge', "        if c.face(h) and ", "        if c.face(h) == 0: break\n        if "),
    (': adjacent half-edges only', "range(0, nh, 2)", "c.f"),
    (': towards a later face only', "c.face(h) and c.face(h ^ 1) and", "0 < c.face(h) < c.face(h ^ 1) and"),
    (': towards an earlier face only', "c.face(h) and c.face(h ^ 1) and", "0 < c.face(h ^ 1) < c.face(h) and"),
    (': without edges that end on the rim', "c.face(h) and c.face(h ^ 1) and", "not any(c.org(h) in r or c.org(h ^ 1) in r %s) and" % RIM),
    (': without edges between two of the rim', "c.face(h) and c.face(h ^ 1) and", "c.face(h) and c.face(h ^ 1) and not any(c.org(h) in r and c.org(h ^ 1) in r %s) and" % RIM),
    (': without the faces at the rim', "c.face(h) and c.face(h ^ 1) and", "c.face(h) and c.face(h ^ 1) and all(c.face(e ^ 1) for e in (c.nxt(h), c.prv(h), c.nxt(h ^ 1), c.prv(h ^ 1))) and"),
]] + [('11 by edges: before 10', TEN + FACES, EDGES + TEN)]


def run(text, d, only):
    m = types.ModuleType('mutant')
    m.__file__ = 'mutant'
    exec(compile(text, 'mutant', 'exec'), m.__dict__)
    out = io.StringIO()
    try:
        with contextlib.redirect_stdout(out): m.suite(d, True, only)
    except (Exception, RecursionError) as e:
        return 'crash %s' % type(e).__name__
    o = out.getvalue().strip().split('\n')
    return o[-1] if o[-1].endswith(' 0 files differ') else o[0]


if __name__ == '__main__':
    sys.setrecursionlimit(3000)
    only = take_only(sys.argv)
    d = sys.argv[1]
    alive = 0
    skip = int(sys.argv[2]) if len(sys.argv) > 2 else 0
    for name, old, new in [('(none)', 'import math', 'import math')] + M[skip:]:
        assert SRC.count(old) == 1, (name, SRC.count(old))
        r = run(SRC.replace(old, new), d, only)
        if r.endswith(' 0 files differ') and name != '(none)':
            alive += 1
            print('ALIVE ', end='')
        print(name, '->', r, flush=True)
    print('%d mutants, %d alive' % (len(M), alive))
