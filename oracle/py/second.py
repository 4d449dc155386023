#!/usr/bin/env python3
"""Second implementation of document 01, independent of the Rust sources and of driver/*.rs.

Exact parts (predicates, gradient sums, circumcentre numerators) are Python whole numbers, the float parts
are Python floats (IEEE 754 doubles, no fused operations), in the order of operations of the sources.
It has 01's addition (a face is opened once); the Rust has not: where the two agree it made no difference. A broken
turn, which 02 (CR 11) says is never met, ends the run.

    second.py suite [--only KINDS] DIR   recompute every case of DIR and compare with the files the Rust oracle wrote
                                         (--only: answers.txt alone, with these kinds of lines, as the oracle's option)
    second.py check FILE..               the refusal of each chart (0: accepted)
"""
import math, os, struct, sys
from fractions import Fraction

GRID = int(os.environ.get('GRID', 10000))  # CR 6: 1000000
LIGHT = os.environ.get('LIGHT') == '1'     # CR 5

# ---------------------------------------------------------------- chart text and refusals 3 to 11


def field(b):
    """One field: eight bytes to a whole number, or None."""
    t = b.lstrip(b' ')
    if len(b) != 8 or not t:
        return None
    neg = t[:1] == b'-'
    d = t[1:] if neg else t
    if not d or any(c < 48 or c > 57 for c in d):
        return None
    n = int(d)
    if str(n).encode() != d or (neg and n == 0):
        return None
    return -n if neg else n


def fields(line, n):
    """A line without its end to n numbers, or None."""
    if len(line) != 8 * n + 1 or line[-1] != 10:
        return None
    r = [field(line[8 * k:8 * k + 8]) for k in range(n)]
    return None if None in r else r


class Chart:
    def __init__(self, vertices, half, faces):
        self.v, self.h, self.f = vertices, half, faces

    def text(self):
        w = lambda r: ''.join('%8d' % n for n in r) + '\n'
        return (w([len(self.v), len(self.h), len(self.f)]) + ''.join(map(w, self.v)) + ''.join(map(w, self.h))
                + ''.join(w([a]) for a in self.f)).encode()

    def at(self, i):
        return self.v[i][0], self.v[i][1]

    def org(self, h): return self.h[h][0]
    def nxt(self, h): return self.h[h][1]
    def prv(self, h): return self.h[h][2]
    def face(self, h): return self.h[h][3]
    def frm(self, h): return self.at(self.h[h][0])
    def to(self, h): return self.at(self.h[h ^ 1][0])

    def edges_of(self, f):
        a = self.f[f]
        return [self.prv(a), a, self.nxt(a)]

    def corners(self, f):
        return [self.frm(h) for h in self.edges_of(f)]


def side(a, b, q):
    return (b[0] - a[0]) * (q[1] - a[1]) - (b[1] - a[1]) * (q[0] - a[0])


def circle(a, b, c, q):
    m = []
    for p in (a, b, c):
        ux, uy = p[0] - q[0], p[1] - q[1]
        m.append((ux, uy, ux * ux + uy * uy))
    (a, b, c), (d, e, f), (g, h, i) = m
    return a * e * i + b * f * g + c * d * h - c * e * g - b * d * i - a * f * h


def counts_refused(nv, nh, nf):
    return nv < 3 or nv > 128 or nh % 2 or nh < 6 or nh > 756 or nf < 2 or nf > 252


def parse(b, room=None):
    """(refusal, None) with 3, 4, 5 or 2; or (0, Chart of unchecked tables)."""
    if len(b) < 25:
        return 3, None
    c = fields(b[:25], 3)
    if c is None:
        return 5, None
    nv, nh, nf = c
    if counts_refused(nv, nh, nf):
        return 4, None
    if room is not None and room < nh:
        return 2, None
    if len(b) != 25 + 33 * nv + 33 * nh + 9 * nf:
        return 3, None
    rows, at = [], 25
    for n, width in ((nv, 4), (nh, 4), (nf, 1)):
        for _ in range(n):
            r = fields(b[at:at + 8 * width + 1], width)
            if r is None:
                return 5, None
            rows.append(r)
            at += 8 * width + 1
    return 0, Chart(rows[:nv], rows[nv:nv + nh], [r[0] for r in rows[nv + nh:]])


def link_faults(c):
    """The names of the clauses of 'Links' that some element breaks."""
    bad = set()
    for h in range(len(c.h)):
        n, p = c.nxt(h), c.prv(h)
        if c.org(n) != c.org(h ^ 1): bad.add('next-start')
        if c.org(h) == c.org(h ^ 1): bad.add('same-origin')
        if c.prv(n) != h: bad.add('prev-of-next')
        if c.nxt(p) != h: bad.add('next-of-prev')
        if c.face(n) != c.face(h): bad.add('next-face')
        if c.face(h) != 0:
            if c.nxt(c.nxt(n)) != h: bad.add('three-nexts')
            if h not in c.edges_of(c.face(h)): bad.add('face-edges')
    for i, v in enumerate(c.v):
        if c.org(v[3]) != i: bad.add('out-start')
        if sum(1 for h in range(len(c.h)) if c.face(h) == 0 and c.org(h) == i) > 1: bad.add('two-outer')
    for i, a in enumerate(c.f):
        if c.face(a) != i: bad.add('adjacent-face')
    return bad


def table_faults(c):
    """Refusal 6 to 11 of the tables, or 0."""
    ok = lambda n, m: 0 <= n < m
    nv, nh, nf = len(c.v), len(c.h), len(c.f)
    for x, y, z, o in c.v:
        if abs(x) > GRID or abs(y) > GRID or z < 0 or z > 1000000 or not ok(o, nh): return 6
    for o, n, p, f in c.h:
        if not (ok(o, nv) and ok(n, nh) and ok(p, nh) and ok(f, nf)): return 6
    for a in c.f:
        if not ok(a, nh): return 6
    if link_faults(c): return 7
    if len(set((v[0], v[1]) for v in c.v)) < nv: return 8
    for f in range(1, nf):
        if side(*c.corners(f)) <= 0: return 9
    for h in range(nh):
        if c.face(h) == 0 and any(side(c.frm(h), c.to(h), c.at(i)) > 0 for i in range(nv)): return 10
    for f in range(1, nf):
        k = c.corners(f)
        if any(circle(*k, c.at(i)) > 0 for i in range(nv)): return 11
    return 0


def refusal(b, room=None):
    n, c = parse(b, room)
    return n if n else table_faults(c)


def write_chart(vs, hs, fs, lent):
    """CR 1: the text of three tables of numbers into a bytearray; (0, its length), or (the refusal, 0) and nothing is written."""
    if len(vs) % 4 or len(hs) % 4: return 2, 0
    if counts_refused(len(vs) // 4, len(hs) // 4, len(fs)): return 4, 0
    rows = lambda t: [t[i:i + 4] for i in range(0, len(t) - 3, 4)]
    c = Chart(rows(vs), rows(hs), fs)
    n = table_faults(c)
    if n: return n, 0
    t = c.text()
    if len(lent) < len(t): return 18, 0
    lent[:len(t)] = t
    return 0, len(t)


# ---------------------------------------------------------------- location, neighbours, weights


def locate(c, q):
    for i in range(len(c.v)):
        if c.at(i) == q: return 'vertex', i
    for h in range(0, len(c.h), 2):
        a, b = c.frm(h), c.to(h)
        # on the open segment: on the line, and the projection strictly between the ends
        if side(a, b, q) == 0:
            d = (q[0] - a[0]) * (b[0] - a[0]) + (q[1] - a[1]) * (b[1] - a[1])
            if 0 < d < (b[0] - a[0]) ** 2 + (b[1] - a[1]) ** 2: return 'edge', h
    for f in range(1, len(c.f)):
        if all(side(c.frm(h), c.to(h), q) > 0 for h in c.edges_of(f)): return 'face', f
    for h in range(len(c.h)):
        if c.face(h) == 0 and side(c.frm(h), c.to(h), q) > 0: return 'outside', h
    raise AssertionError('CR 2: no place for %r' % (q,))


def natural_edges(c, q):
    """('ok', opened, edges) or a refusal number."""
    kind, n = locate(c, q)
    if kind == 'outside': return 14
    if kind == 'vertex': return 'ok', 0, [c.v[n][3]]
    if kind == 'edge' and 0 in (c.face(n), c.face(n ^ 1)): return 'ok', 0, [n, n ^ 1]
    opened, edges = search(c, q, kind, n)
    return 'ok', len(opened), edges


def search(c, q, kind, n):
    """The faces opened and the edges listed from a face or an inner edge."""
    opened, out = set(), []
    if kind == 'face':
        opened.add(n)
        starts = [h ^ 1 for h in reversed(c.edges_of(n))]
    else:
        starts = [n, n ^ 1]

    def visit(h):
        f = c.face(h)
        if f != 0 and f not in opened and circle(c.frm(c.prv(h)), c.frm(h), c.to(h), q) > 0:
            opened.add(f)
            visit(c.prv(h) ^ 1)  # the one pushed last is looked at first
            visit(c.nxt(h) ^ 1)
        else:
            out.append(h ^ 1)

    for h in starts:
        visit(h)
    return opened, out[::-1]


def div(a, b):
    """IEEE division (Python raises at 0)."""
    if b == 0.0:
        if a == 0.0 or a != a: return math.nan
        return math.copysign(math.inf, a) * math.copysign(1.0, b)
    return a / b


def centre(v0, v1, v2):
    """circumcenter. On 01's grid d and the two numerators are whole numbers below 2^53, so only d_inv, the products with it
    and the sums round (asserted); on the grid of CR 6 the numerators round too."""
    bx, by, cx, cy = v1[0] - v0[0], v1[1] - v0[1], v2[0] - v0[0], v2[1] - v0[1]
    d = 2 * (bx * cy - cx * by)
    lb, lc = bx * bx + by * by, cx * cx + cy * cy
    assert max(abs(d), lb, lc) < 2 ** 53
    nx = float(lb) * float(cy) - float(lc) * float(by)
    ny = -float(lb) * float(cx) + float(lc) * float(bx)
    if GRID <= 10000: assert nx == lb * cy - lc * by and ny == lc * bx - lb * cx
    inv = div(1.0, float(d))
    return nx * inv + float(v0[0]), ny * inv + float(v0[1])


def two_points(c, h, q):
    a, b = c.frm(h), c.to(h)
    dx, dy = b[0] - a[0], b[1] - a[1]
    rel = div(float((q[0] - a[0]) * dx + (q[1] - a[1]) * dy), float(dx * dx + dy * dy))
    return [(c.org(h), 1.0 - rel), (c.org(h ^ 1), rel)]


def barycentric(c, q):
    kind, n = locate(c, q)
    if kind == 'outside': return 14
    if kind == 'vertex': return [(n, 1.0)]
    if kind == 'edge': return two_points(c, n, q)
    hs = c.edges_of(n)
    (x1, y1), (x2, y2), (x3, y3) = [c.frm(h) for h in hs]
    det = float((y2 - y3) * (x1 - x3) + (x3 - x2) * (y1 - y3))
    l1 = div(float((y2 - y3) * (q[0] - x3) + (x3 - x2) * (q[1] - y3)), det)
    l2 = div(float((y3 - y1) * (q[0] - x3) + (x1 - x3) * (q[1] - y3)), det)
    return list(zip([c.org(h) for h in hs], [l1, l2, 1.0 - l1 - l2]))


def natural(c, q):
    """(opened, weights) or a refusal number."""
    e = natural_edges(c, q)
    return (e[1], shares(c, q, e[2])) if isinstance(e, tuple) else e


def shares(c, q, es):
    """The natural weights by the listed edges."""
    if len(es) == 1: return [(c.org(es[0]), 1.0)]
    if len(es) == 2: return two_points(c, es[0], q)
    rel = lambda p: (p[0] - q[0], p[1] - q[1])
    cell = [centre(rel(c.to(h)), rel(c.frm(h)), (0, 0)) for h in es]
    cur, last = es[-1], cell[-1]
    total, areas = 0.0, []
    for stop, first in zip(es, cell):
        pos, neg = first[0] * last[1], first[1] * last[0]
        steps = 0
        while True:
            steps += 1
            assert c.face(cur) != 0 and steps <= len(c.h), 'CR 11: a broken turn at %r' % (q,)
            m = centre(*[rel(p) for p in c.corners(c.face(cur))])
            pos, neg = pos + last[0] * m[1], neg + last[1] * m[0]
            cur, last = c.nxt(cur) ^ 1, m
            if cur == stop ^ 1:
                pos, neg = pos + m[0] * first[1], neg + m[1] * first[0]
                break
        area = pos - neg
        total = total + area
        areas.append((c.org(stop), area))
        cur, last = stop, first
    return [(v, div(a, total)) for v, a in areas]


def gradient(c, i):
    """Whole sums, then one division each."""
    x, y, z, out = c.v[i]
    ring, h = [], out
    while True:
        ring.append(c.v[c.org(h ^ 1)])
        h = c.prv(h) ^ 1
        assert len(ring) <= len(c.h)
        if h == out: break
    s = [0, 0, 0]
    for k, p in enumerate(ring):
        r = ring[(k + 1) % len(ring)]
        a, b = (p[0] - x, p[1] - y, p[2] - z), (r[0] - x, r[1] - y, r[2] - z)
        n = (a[1] * b[2] - a[2] * b[1], a[2] * b[0] - a[0] * b[2], a[0] * b[1] - a[1] * b[0])
        if n[2] > 0: s = [s[j] + n[j] for j in range(3)]
        assert all(abs(t) < 2 ** 53 for t in s)
    if s[2] == 0: return 0.0, 0.0
    return -float(s[0]) / float(s[2]), -float(s[1]) / float(s[2])


def value(c, grads, q, method):
    """A float, or a refusal as an int."""
    w = barycentric(c, q) if method == 1 else natural(c, q)
    if isinstance(w, int): return w
    if method > 1: w = w[1]
    if method < 3:
        t = 0.0
        for v, x in w: t = t + float(c.v[v][2]) * x
        return t
    s0 = s1 = sw = alpha = beta = 0.0
    for v, x in w:
        h = float(c.v[v][2])
        dx, dy = q[0] - c.v[v][0], q[1] - c.v[v][1]
        r = dx * dx + dy * dy
        if r == 0: return h
        r = float(r)
        cw = div(x, r)
        gx, gy = grads[v]
        zeta = h + (float(dx) * gx + float(dy) * gy)
        alpha = alpha + cw * r
        beta = beta + x * r
        sw = sw + cw
        s1 = s1 + zeta * cw
        s0 = s0 + h * x
    alpha = div(alpha, sw)
    s1 = div(s1, sw)
    return div(alpha * s0 + beta * s1, alpha + beta)


def charge(v):
    """(True, n) or (False, 16)."""
    if v != v or v in (math.inf, -math.inf): return False, 16
    f = Fraction(v)
    if f < Fraction(-1, 2) or f >= Fraction(2000001, 2): return False, 16
    if LIGHT and 0 < f < Fraction(1, 2): return True, 1
    return True, math.floor(f + Fraction(1, 2))


# ---------------------------------------------------------------- the same texts as the Rust oracle


def bits(f):
    return 'nan' if f != f else str(struct.unpack('<Q', struct.pack('<d', f))[0])


def on_grid(q): return abs(q[0]) <= GRID and abs(q[1]) <= GRID


def take_only(argv):
    """Takes '--only A,B,..' out of the arguments: the kinds of lines wanted, or None for all."""
    if '--only' not in argv: return None
    i = argv.index('--only')
    only = set(argv[i + 1].split(','))
    del argv[i:i + 2]
    return only


def written(b):
    """The lines of a chart written back: from its tables as numbers, with rooms about its length, and from tables that lack something."""
    n, c = parse(b)
    if n: return []
    vs, hs, fs = sum(c.v, []), sum(c.h, []), c.f

    def answer(v, h, f, room):
        lent = bytearray(room)
        n, m = write_chart(v, h, f, lent)
        said = 'refused %d' % n if n else '%d %s' % (m, 'same' if lent[:m] == b[:m] else 'other')
        return said + (' changed' if any(lent[m:]) else '')

    size = len(b)
    return ['written ' + answer(vs, hs, fs, size),
            'short ' + answer(vs, hs, fs, size - 1),
            'longer ' + answer(vs, hs, fs, size + 8),
            'uneven ' + ' '.join([answer(vs[:-1], hs, fs, size), answer(vs, hs[:-1], fs, size)]),
            'less ' + ' '.join([answer(vs[:-4], hs, fs, size), answer(vs, hs[:-4], fs, size), answer(vs, hs, fs[:-1], size)])]


def answers(b, queries, rooms=(), only=None):
    def put(kind, text):
        if only is None or kind in only: o.append('%s %s' % (kind, text()))

    def weights(w):
        if isinstance(w, int): return 'refused %d' % w
        opened, w = ([w[0]], w[1]) if isinstance(w, tuple) else ([], w)
        return ' '.join(map(str, opened + [len(w)] + ['%d %s' % (v, bits(x)) for v, x in w]))
    def place(c, q):
        return '%s %d' % locate(c, q)
    def edges(c, q):
        e = natural_edges(c, q)
        return '%d %d %s' % (e[1], len(e[2]), ' '.join(map(str, e[2]))) if isinstance(e, tuple) else 'refused %d' % e
    def charged(c, q, m):
        v = value(c, grads, q, m)
        if isinstance(v, int): return '%d refused %d' % (m, v)
        ok, n = charge(v)
        return '%d %s charge %s' % (m, bits(v), n if ok else 'refused %d' % n)

    o = []
    n = refusal(b)
    put('verdict', lambda: n)
    if only is None or 'written' in only: o += written(b)
    for r in rooms: put('room', lambda: '%d %d' % (r, refusal(b, r)))
    if n or (only is not None and only <= {'verdict', 'written', 'room'}): return '\n'.join(o + [''])
    c = parse(b)[1]
    grads = [gradient(c, i) for i in range(len(c.v))]
    for i, g in enumerate(grads): put('gradient', lambda: '%d %s %s' % (i, bits(g[0]), bits(g[1])))
    for q in queries:
        grid = on_grid(q)
        put('query', lambda: '%d %d' % q)
        put('location', lambda: place(c, q) if grid else 'refused 13')
        put('barycentric', lambda: weights(barycentric(c, q) if grid else 13))
        put('edges', lambda: edges(c, q) if grid else 'refused 13')
        put('natural', lambda: weights(natural(c, q) if grid else 13))
        for m in (1, 2, 3): put('value', lambda: charged(c, q, m) if grid else '%d refused 13' % m)
    return '\n'.join(o + [''])


FULL = 10 ** 12


class Tally:
    """The book, kept as plain numbers."""

    def __init__(self, s, retired=0, wear=None, bends=None):
        self.s, self.retired = s, retired
        self.wear, self.bends = wear or [0] * 16, bends or [0] * 16

    def entry(self, c, grads, e):
        kind, sec, x, y, m = e
        def no(n): return 2000000 + n
        if kind not in (1, 2) or not 0 <= sec < self.s: return no(12)
        if kind == 2:
            if (x, y, m) != (0, 0, 0): return no(12)
            self.retired, self.wear[sec], self.bends[sec] = self.retired + self.wear[sec], 0, 0
            return 0
        if m not in (1, 2, 3): return no(12)
        if not on_grid((x, y)): return no(13)
        v = value(c, grads, (x, y), m)
        if isinstance(v, int): return no(v)
        ok, n = charge(v)
        if not ok: return no(n)
        if sum(self.wear) + self.retired + n > FULL or self.bends[sec] == FULL: return no(17)
        self.wear[sec] += n
        self.bends[sec] += 1
        return n


def bends(b, log):
    n = refusal(b)
    es = None
    if n == 0:
        if len(log) % 41: n = 3
        elif len(log) > 41 * 512: n = 4
        else:
            es = [fields(log[i:i + 41], 5) for i in range(0, len(log), 41)]
            if None in es: n = 5
    if n: return '%8d\n' % n
    c = parse(b)[1]
    grads = [gradient(c, i) for i in range(len(c.v))]
    t = Tally(2)
    out = ''.join('%8d%8d\n' % (i + 1, t.entry(c, grads, e)) for i, e in enumerate(es))
    return out + ''.join('%8d%16d%16d\n' % (s, t.wear[s], t.bends[s]) for s in (0, 1)) + '%16d\n' % t.retired


def batch(b, spec):
    """A list of batches, each handed the book of the one before."""
    lines = [list(map(int, l.split())) for l in spec.split('\n')]
    (s, retired, room), rows, ent = lines[0], lines[1:17], lines[17]
    t = Tally(s, retired, [w for w, n in rows], [n for w, n in rows])
    out, at = one_batch(t, b, room, ent), 18
    while lines[at]:
        room, cut = lines[at]
        out += one_batch(t, b[:max(0, len(b) - cut)], room, lines[at + 1])
        at += 2
    return out


def one_batch(t, b, room, ent):
    s, retired, wear, cnt = t.s, t.retired, t.wear, t.bends
    if not 1 <= s <= 16 or sum(wear) + retired > FULL or max(cnt) > FULL or any(wear[s:]) or any(cnt[s:]): r = 1
    elif len(ent) % 5 or room < len(ent) // 5: r = 2
    else: r = refusal(b)
    if r: out = 'refused %d' % r
    else:
        c = parse(b)[1]
        grads = [gradient(c, i) for i in range(len(c.v))]
        out = ' '.join(['answers'] + [str(t.entry(c, grads, ent[i:i + 5])) for i in range(0, len(ent), 5)])
    return out + '\nbook %d %d\n' % (t.s, t.retired) + ''.join('%d %d\n' % p for p in zip(t.wear, t.bends))


def suite(d, first_only=False, only=None):
    cases = lines = 0
    bad = []
    for name in sorted(os.listdir(d), key=lambda s: ('xgkhlsubdwrqpyvatf'.find(s[0]), s)):
        p = os.path.join(d, name)
        if not os.path.isdir(p): continue
        rd = lambda f: open(os.path.join(p, f), 'rb').read() if os.path.exists(os.path.join(p, f)) else None
        b = rd('chart.txt') or b''
        n = list(map(int, (rd('queries.txt') or b'').split()))
        mine = answers(b, list(zip(n[::2], n[1::2])), list(map(int, (rd('rooms.txt') or b'').split())), only)
        todo = [('answers.txt', mine)]
        if rd('log.txt') is not None and (only is None or 'log' in only): todo.append(('bends.txt', bends(b, rd('log.txt'))))
        if rd('batch.txt') is not None and (only is None or 'batch' in only): todo.append(('batch-answer.txt', batch(b, rd('batch.txt').decode())))
        for f, m in todo:
            theirs = (rd(f) or b'').decode()
            lines += m.count('\n')
            if theirs != m:
                bad.append(name + '/' + f)
                for x, y in zip(theirs.split('\n'), m.split('\n')):
                    if x != y:
                        print('DIFFER %s/%s\n  rust   %s\n  second %s' % (name, f, x, y))
                        break
                else:
                    print('DIFFER %s/%s in length' % (name, f))
        cases += 1
        if bad and first_only: break
    print('%d cases, %d lines compared, %d files differ' % (cases, lines, len(bad)))
    return 1 if bad else 0


if __name__ == '__main__':
    sys.setrecursionlimit(10000)
    only = take_only(sys.argv)
    if sys.argv[1] == 'suite': sys.exit(suite(sys.argv[2], only=only))
    if sys.argv[1] == 'check':
        for f in sys.argv[2:]: print(refusal(open(f, 'rb').read()), f)
