#!/usr/bin/env python3
"""Random charts, damaged charts, queries, logs and batches.

    gen.py DIR SEED ACCEPTED DAMAGED [MAXV]
writes DIR/aNNNNN (accepted charts with queries.txt, log.txt, batch.txt, rooms.txt) and DIR/dNNNNN (damaged charts with
expect.txt: the refusal and the kind of damage), ACCEPTED lists of batches DIR/bNNNNN, and the families that are in every suite (README.md names them). Then run
`oracle suite DIR` and `second.py suite DIR`.
"""
import collections, itertools, math, os, random, sys

sys.dont_write_bytecode = True  # nothing is left in the source tree
from second import GRID as G, Chart, side, circle, refusal, parse, table_faults, link_faults, locate, gradient, value

# ---------------------------------------------------------------- Delaunay triangulation by sweep and exact flips


def flip(opp, a, b):
    """The other diagonal of the quadrilateral about edge a, b; its four sides."""
    c, d = opp.pop((a, b)), opp.pop((b, a))
    for x, y, z in ((a, d, c), (d, b, c)): opp[x, y], opp[y, z], opp[z, x] = z, x, y
    return [(a, d), (d, b), (b, c), (c, a)]


def delaunay(pts, rnd):
    """dict directed edge -> opposite corner of the face on its left, over indices of pts; None when all on a line."""
    order = sorted(range(len(pts)), key=lambda i: pts[i])
    opp = {}

    def face(a, b, c):
        if side(pts[a], pts[b], pts[c]) < 0: a, b = b, a
        opp[a, b], opp[b, c], opp[c, a] = c, a, b

    k = 2
    while k < len(order) and side(pts[order[0]], pts[order[1]], pts[order[k]]) == 0: k += 1
    if k == len(order): return None
    for i in range(k - 1): face(order[i], order[i + 1], order[k])
    nxt = {a: b for (a, b) in opp if (b, a) not in opp}  # the hull, counterclockwise
    for p in order[k + 1:]:
        seen = [(a, b) for a, b in nxt.items() if side(pts[a], pts[b], pts[p]) < 0]
        ends, starts = {b for _, b in seen}, {a for a, _ in seen}
        for a, b in seen:
            face(b, a, p)
            del nxt[a]
        (first,), (last,) = starts - ends, ends - starts
        nxt[first], nxt[p] = p, last

    todo = list(opp)
    rnd.shuffle(todo)
    while todo:
        a, b = todo.pop()
        if (a, b) in opp and (b, a) in opp and circle(pts[a], pts[b], pts[opp[a, b]], pts[opp[b, a]]) > 0:
            todo += flip(opp, a, b)
    # co-circular ties: flip some at random (both diagonals are right)
    for a, b in rnd.sample(sorted(opp), len(opp)):
        if rnd.random() < 0.5 and (a, b) in opp and (b, a) in opp:
            c, d = opp[a, b], opp[b, a]
            if circle(pts[a], pts[b], pts[c], pts[d]) == 0 and side(pts[c], pts[d], pts[a]) != 0 and side(pts[c], pts[d], pts[b]) != 0:
                flip(opp, a, b)
    return opp


def chart_of(pts, opp, values, rnd, shuffle=True):
    """Half-edge tables with random numbering of vertices, edges and faces, and random out and adjacent edges."""
    n = len(pts)
    perm = list(range(n))
    if shuffle: rnd.shuffle(perm)  # perm[i]: the number of point i
    und = sorted({(min(e), max(e)) for e in opp})
    if shuffle: rnd.shuffle(und)
    num = {}
    for k, (a, b) in enumerate(und):
        if rnd.random() < 0.5: a, b = b, a
        num[a, b], num[b, a] = 2 * k, 2 * k + 1
    tris = sorted({min((a, b, c), (b, c, a), (c, a, b)) for (a, b), c in opp.items()})
    if shuffle: rnd.shuffle(tris)
    half = [None] * len(num)
    faces = [None]
    for f, (a, b, c) in enumerate(tris, 1):
        hs = [num[a, b], num[b, c], num[c, a]]
        for j in range(3): half[hs[j]] = [perm[(a, b, c)[j]], hs[(j + 1) % 3], hs[(j + 2) % 3], f]
        faces.append(rnd.choice(hs))
    outer = {a: (a, b) for (a, b) in num if (a, b) not in opp}  # clockwise about the hull
    for a, (_, b) in outer.items():
        half[num[a, b]] = [perm[a], num[outer[b]], None, 0]
    for a, (_, b) in outer.items(): half[half[num[a, b]][1]][2] = num[a, b]
    faces[0] = num[rnd.choice(sorted(outer.values()))]
    v = [None] * n
    out = collections.defaultdict(list)
    for (a, b), h in num.items(): out[a].append(h)
    for i in range(n): v[perm[i]] = [pts[i][0], pts[i][1], values[i], rnd.choice(out[i])]
    return Chart(v, half, faces)


# ---------------------------------------------------------------- families of point sets

LATTICE = {}


def lattice_circle(r2):
    if r2 not in LATTICE:
        m = math.isqrt(r2)
        LATTICE[r2] = [(x, s * y) for x in range(-m, m + 1) for y in [math.isqrt(r2 - x * x)] if y * y == r2 - x * x
                       for s in ((1, -1) if y else (1,))]
    return LATTICE[r2]


def points(rnd, maxv):
    kind = rnd.choice(['uniform'] * 4 + ['small', 'grid', 'grid', 'circle', 'circle+', 'box', 'sliver', 'sliver', 'needle', 'parabola',
                                          'hull3', 'tiny', 'extreme', 'fan', 'cluster'])
    n = rnd.choice([3, 4, 5, 6, 8, 12, 20, 40, 64, 100, 127, 128])
    n = min(n, maxv)
    R = rnd.choice([20, 100, 1000, G])
    u = lambda r: rnd.randint(-r, r)
    P = []
    if kind == 'uniform': P = [(u(R), u(R)) for _ in range(n)]
    if kind == 'small': P = [(u(rnd.choice([2, 3, 5])), u(3)) for _ in range(n)]
    if kind == 'grid':
        w, h = rnd.randint(2, 11), rnd.randint(2, 11)
        s, t = rnd.choice([1, 2, 3, 10, 900]), rnd.choice([1, 2, 5, 10, 900])
        P = [(i * s, j * t) for i in range(w) for j in range(h)]
        if rnd.random() < 0.5: P = [p for p in P if rnd.random() < 0.8]
        if rnd.random() < 0.3: P = [(x - y, x + y) for x, y in P]  # turned by 45 degrees
    if kind in ('circle', 'circle+'):
        P = lattice_circle(rnd.choice([25, 65, 325, 1105, 5525, 27625]))
        P = rnd.sample(P, min(len(P), n))
        if kind == 'circle+': P = P + [(u(10), u(10)) for _ in range(rnd.randint(1, 4))]
    if kind == 'box':
        r = rnd.choice([6, 50, G])
        P = [(r, r), (-r, r), (r, -r), (-r, -r)]
        for _ in range(n - 4): P.append(rnd.choice([(r, u(r)), (-r, u(r)), (u(r), r), (u(r), -r), (u(r), u(r))]))
    if kind == 'sliver':  # points at or next to a line: huge circles, cancellation in the natural weights
        dx, dy = rnd.choice([(1, 0), (0, 1), (1, 1), (2, 1), (3, -2), (7, 5)])
        m = (G - 10) // max(abs(dx), abs(dy))
        for _ in range(n):
            t = u(m)
            P.append((t * dx + rnd.choice([0, 0, 0, 1, -1]), t * dy + rnd.choice([0, 0, 1, -1])))
    if kind == 'needle':  # a few points next to a long line: the largest circles that the grid has, weights of -0
        dx, dy = rnd.choice([(1, 0), (0, 1), (1, 1), (-1, 1), (7, 5), (97, 89), (1000, 999), (3333, 3331)])
        m = (G - 10) // max(abs(dx), abs(dy))
        for _ in range(rnd.randint(4, 9)):
            t = rnd.choice([u(m), m, -m, 0, 1])
            P.append((t * dx + rnd.choice([0, 0, 1, -1]), t * dy + rnd.choice([0, 0, 1, -1])))
    if kind == 'parabola': P = [(t, t * t // rnd.choice([1, 2, 3]) - 5000) for t in rnd.sample(range(-100, 101), min(n, 128))]
    if kind == 'hull3': P = [(-G, -G), (G, -G), (u(G), G)] + [(u(3000), u(2000) - 5000) for _ in range(n - 3)]
    if kind == 'tiny': P = [(u(2), u(2)) for _ in range(5)]
    if kind == 'extreme': P = [(rnd.choice([-G, -(G - 1), (G - 1), G, 0, u(G)]), rnd.choice([-G, -(G - 1), (G - 1), G, 0, u(G)])) for _ in range(n)]
    if kind == 'fan':
        P = [(0, 0)] + rnd.sample(lattice_circle(27625), 20) + [(u(300), u(300)) for _ in range(rnd.randint(0, 5))]
    if kind == 'cluster': P = [(u(G), u(G)) for _ in range(max(3, n // 8))] + [(u(6), u(6)) for _ in range(n)]
    if rnd.random() < 0.3 and all(abs(c) < 4000 for p in P for c in p):
        ox, oy = u(5900), u(5900)
        P = [(x + ox, y + oy) for x, y in P]
    P = sorted(set(p for p in P if abs(p[0]) <= G and abs(p[1]) <= G))
    rnd.shuffle(P)
    return kind, P[:maxv]


def values(rnd, P):
    k = rnd.randrange(6)
    if k == 0: return [rnd.randint(0, 1000000) for _ in P]
    if k == 1: return [rnd.choice([0, 1000000]) for _ in P]
    if k == 2: return [rnd.randint(0, 3) for _ in P]
    if k == 3: return [min(1000000, max(0, 500000 + rnd.choice([1, 2, 7]) * p[0] - 3 * p[1])) for p in P]
    if k == 4: return [rnd.choice([0, 1, 777777, 1000000])] * len(P)
    return [rnd.randint(0, 5000) for _ in P]


def accepted(rnd, maxv):
    while True:
        kind, P = points(rnd, maxv)
        if len(P) < 3: continue
        opp = delaunay(P, rnd)
        if opp is None: continue
        return kind, chart_of(P, opp, values(rnd, P), rnd)


def queries(rnd, c, n=24):
    q = []
    cl = lambda p: (max(-G, min(G, p[0])), max(-G, min(G, p[1])))
    xs, ys = [v[0] for v in c.v], [v[1] for v in c.v]
    box = lambda m: (rnd.randint(min(xs) - m, max(xs) + m), rnd.randint(min(ys) - m, max(ys) + m))
    for i in rnd.sample(range(len(c.v)), min(3, len(c.v))):
        q.append(c.at(i))
        q.append(cl((c.v[i][0] + rnd.randint(-1, 1), c.v[i][1] + rnd.randint(-1, 1))))
    es = [h for h in range(0, len(c.h), 2)]
    rnd.shuffle(es)
    hull = inner = 0
    for h in es:  # lattice points of open edges, and beyond the edge on its line
        (ax, ay), (bx, by) = c.frm(h), c.to(h)
        g = math.gcd(bx - ax, by - ay)
        on_hull = 0 in (c.face(h), c.face(h ^ 1))
        if g > 1 and (hull < 3 if on_hull else inner < 4):
            t = rnd.randint(1, g - 1)
            q.append((ax + (bx - ax) // g * t, ay + (by - ay) // g * t))
            if on_hull: hull += 1
            else: inner += 1
        if len(q) < 10 and rnd.random() < 0.3:
            q.append(cl((bx + (bx - ax) // g, by + (by - ay) // g)))
    for f in rnd.sample(range(1, len(c.f)), min(6, len(c.f) - 1)):
        k = c.corners(f)
        q.append((sum(p[0] for p in k) // 3, sum(p[1] for p in k) // 3))
        w = [rnd.random() for _ in range(3)]
        q.append(tuple(int(sum(p[j] * x for p, x in zip(k, w)) / sum(w)) for j in (0, 1)))
    while len(q) < n - 4: q.append(cl(box(0)))
    q += [cl(box(5)), rnd.choice([(G, G), (-G, G), (G, -G), (-G, -G)]),
          rnd.choice([(G + 1, 0), (0, -G - 1), (-G - 1, 5), (3, G + 1), (99999999, 0), (0, -9999999)])]
    rnd.shuffle(q)
    return q


def query_text(q):
    return ''.join('%d %d\n' % p for p in q)


def entries(rnd, q, n, sections):
    es = []
    for _ in range(n):
        x, y = rnd.choice(q)
        r = rnd.random()
        if r < 0.75: e = [1, rnd.randrange(sections), x, y, rnd.randint(1, 3)]
        elif r < 0.87: e = [2, rnd.randrange(sections), 0, 0, 0]
        else:
            e = [rnd.choice([1, 1, 2, 0, 3, -1]), rnd.choice([0, 1, sections - 1, sections, -1, 99]), x, y, rnd.choice([0, 1, 2, 3, 4, -1])]
            if rnd.random() < 0.3: e = [2, rnd.randrange(sections)] + rnd.choice([[1, 0, 0], [0, 1, 0], [0, 0, 1]])
        es.append(e)
    return es


def whole_log(es):
    return ''.join(''.join('%8d' % n for n in e) + '\n' for e in es)


def log_text(rnd, es):
    """A log, perhaps a malformed one."""
    t = whole_log(es).encode()
    r = rnd.random()
    if r < 0.06: t = t[:-1]
    elif r < 0.10: t = t + b'x'
    elif r < 0.20 and t:
        i = rnd.randrange(len(t))
        t = t[:i] + bytes([rnd.choice(b' -0+9x\n\r')]) + t[i + 1:]
    elif r < 0.23 and t: t = (t * (513 * 41 // len(t) + 1))[:513 * 41]
    elif r < 0.26 and t: t = (t * (512 * 41 // len(t) + 1))[:512 * 41]
    return t


def batch_text(rnd, q):
    s = rnd.choice([1, 2, 3, 16, 16, 5])
    full = 10 ** 12
    wear, cnt, retired = [0] * 16, [0] * 16, 0
    for i in range(s):
        cnt[i] = rnd.choice([0, 1, 5, full, full - 1, full - 2])
        wear[i] = rnd.choice([0, 10, rnd.randint(0, full // 20)])
    r = rnd.random()
    if r < 0.5: retired = full - sum(wear) - rnd.choice([0, 1, 1000, 1000000, 3000000])
    if r < 0.10:
        k = rnd.randrange(4)
        if k == 0: s = rnd.choice([0, 17, 2 ** 63])
        if k == 1: retired = full - sum(wear) + 1
        if k == 2: cnt[0] = full + 1
        if k == 3 and s < 16: rnd.choice([wear, cnt])[rnd.randint(s, 15)] = 1
    if 0.10 <= r < 0.14:  # sums that wrap around in 64 bits
        big = rnd.choice([[2 ** 64 - 1, 1], [2 ** 63, 2 ** 63], [2 ** 64 - 10 ** 12, 10 ** 12]])
        if s > 1: wear[0], wear[1] = big
        else: wear[0], retired = big
    es = [n for e in entries(rnd, q, rnd.randint(0, 12), min(max(s, 1), 16)) for n in e]
    room = len(es) // 5 + rnd.choice([0, 0, 1, 7])
    if rnd.random() < 0.06: es = es[:-1]
    if rnd.random() < 0.06: room = max(0, len(es) // 5 - 1)
    return '%d %d %d\n' % (s, retired, room) + ''.join('%d %d\n' % p for p in zip(wear, cnt)) + ' '.join(map(str, es)) + '\n'


def list_text(rnd, q):
    """A list of batches: on a fresh book, one that is nearly full, or one of any numbers."""
    full, any_u64 = 10 ** 12, lambda: rnd.choice([0, 1, 16, 10 ** 12, 2 ** 63, 2 ** 64 - 1, rnd.getrandbits(64), rnd.getrandbits(rnd.randint(1, 64))])
    s = rnd.choice([1, 2, 3, 5, 16])
    rows, retired = [[0, 0] for _ in range(16)], 0
    r = rnd.random()
    if r < 0.35: retired = full - rnd.choice([0, 1, 1000, 500000, 2000000, 5000000])
    if 0.25 < r < 0.5: rows[rnd.randrange(s)][1] = full - rnd.choice([0, 1, 2])
    if r > 0.85: s, retired, rows = rnd.choice([s, any_u64()]), rnd.choice([0, any_u64()]), [[rnd.choice([0, any_u64()]) for _ in range(2)] for _ in range(16)]

    def one():
        es = [n for e in entries(rnd, q, rnd.choice([0, 1, 2, 5, 12]), min(max(s, 1), 16)) for n in e]
        for _ in range(rnd.choice([0, 0, 0, 1, 2])):
            if es: es[rnd.randrange(len(es))] = rnd.choice([-2 ** 63, 2 ** 63 - 1, 2 ** 32, 2 ** 32 + 1, -1, rnd.randint(-2 ** 63, 2 ** 63 - 1)])
        if rnd.random() < 0.12: es = es[:-rnd.randint(1, 4)] if es else [rnd.randint(-3, 3)]
        room = len(es) // 5 + rnd.choice([0, 0, 0, 0, 1, 600, 2 ** 64 - 1 - len(es), -1])
        return max(room, 0), ' '.join(map(str, es))

    room, es = one()
    out = ['%d %d %d' % (s, retired, room)] + ['%d %d' % tuple(r) for r in rows] + [es]
    for _ in range(rnd.randint(0, 6)):
        room, es = one()
        out += ['%d %d' % (room, rnd.choice([0, 0, 0, 0, 0, 0, 1, 9, 316, 2 ** 64 - 1])), es]
    return '\n'.join(out) + '\n'


# ---------------------------------------------------------------- loads where an exact test is 0 or next to it

# squared radius and scale of lattice circles that reach far over the grid of 10,000
LARGE = [(1105, 200), (5525, 100), (27625, 50), (160225, 20), (160225, 22), (801125, 10), (801125, 11)]


def large_circle(rnd):
    """The lattice points of a large circle, counterclockwise."""
    r2, scale = rnd.choice(LARGE)
    return sorted(((scale * x, scale * y) for x, y in lattice_circle(r2)), key=lambda p: math.atan2(p[1], p[0]))


def around(q, r=1):
    """The lattice points within r steps of q, with it."""
    return [(q[0] + i, q[1] + j) for i in range(-r, r + 1) for j in range(-r, r + 1)]


def chart_at(rnd, P, vals=None):
    """A chart of these tests, or None where they give none."""
    if not 3 <= len(P) <= 128 or any(abs(n) > G for p in P for n in p): return None
    opp = delaunay(P, rnd)
    return opp and chart_of(P, opp, vals or values(rnd, P), rnd)


def arc(rnd):
    """Three tests on a large circle and one beyond an arc of it: loads on the arc, exactly on the circle, and one step off."""
    ring = large_circle(rnd)
    n, first = len(ring), rnd.randrange(len(ring))
    ring = ring[first:] + ring[:first]
    span = rnd.randint(2, n // 3)
    between = ring[1:span]
    (x, y), f = between[len(between) // 2], rnd.choice([1.05, 1.2, 1.6, 2.5, 4])
    P = [ring[0], ring[span], ring[rnd.randint(span + 1, n - 1)], (round(f * x), round(f * y))]
    ox, oy = rnd.randint(-3000, 3000), rnd.randint(-3000, 3000)
    if any(abs(x + ox) > G or abs(y + oy) > G for x, y in P): ox = oy = 0
    move = lambda p: (p[0] + ox, p[1] + oy)
    return chart_at(rnd, [move(p) for p in P]), [q for p in between for q in around(move(p))]


def nearly_a_circle(rnd):
    """Tests on a large circle, each perhaps one step off it: loads at them and about the middle."""
    ring = large_circle(rnd)
    off = lambda n: max(-G, min(G, n + rnd.choice([0, 0, 1, -1])))
    P = sorted({(off(x), off(y)) for x, y in rnd.sample(ring, min(len(ring), rnd.choice([5, 6, 8, 12, 24, 48])))})
    anywhere = [(rnd.randint(-9000, 9000), rnd.randint(-9000, 9000)) for _ in range(20)]
    return chart_at(rnd, P), around((0, 0), 2) + anywhere + [q for p in rnd.sample(P, 5) for q in around(p)]


def corner_needle(rnd):
    """Tests at the grid's corners and next to its diagonals: the longest needles that it has, with loads at their ends and along them."""
    rim = [-G, -G + 1, G - 1, G]
    near = lambda n: max(-G, min(G, n + rnd.choice([0, 1, -1])))

    def test():
        if rnd.random() < 0.5: return rnd.choice(rim), rnd.choice(rim)
        t = rnd.randint(-G, G)
        return near(t), near(rnd.choice([t, -t]))

    P = sorted({test() for _ in range(rnd.randint(3, 7))})
    along = [q for t in rnd.sample(range(-G, G), 10) for q in ((t, t), (t, -t), (t, t + 1), (t + 1, t))]
    return chart_at(rnd, P), along + [q for p in P + [(0, 0)] for q in around(p)]


def small_lattice(rnd):
    """A small chart with every lattice load in and next to its box, and each hull vertex's out half-edge the outer one."""
    w, h = rnd.randint(2, 5), rnd.randint(2, 5)
    c = chart_at(rnd, [(i, j) for i in range(w + 1) for j in range(h + 1) if rnd.random() < 0.6])
    if c:
        for e in range(len(c.h)):
            if c.face(e) == 0: c.v[c.org(e)][3] = e
    return c, [(x, y) for x in range(-1, w + 2) for y in range(-1, h + 2)]


def sweep(rnd):
    """A large chart with loads next to its long edges, on them where they have lattice points, and one step off on both sides."""
    P = {(rnd.randint(-G, G), rnd.randint(-G, G)) for _ in range(rnd.randint(100, 128))}
    c = chart_at(rnd, sorted(P))
    length = lambda e: max(abs(c.frm(e)[k] - c.to(e)[k]) for k in (0, 1))
    q = []
    for e in sorted(range(0, len(c.h), 2), key=length)[-60:]:
        t = rnd.random()
        q += around(tuple(round(a + t * (b - a)) for a, b in zip(c.frm(e), c.to(e))))
    return c, q


def straight_side(rnd):
    """A straight hull side with many tests on it: loads on it and on its line beyond."""
    n = rnd.randint(3, 20)
    dx, dy = rnd.choice([(2, 0), (0, 3), (2, 4), (6, 2), (30, 40), (400, 0), (400, 200)])
    start = -(n * dx) // 2, -(n * dy) // 2
    P = [(start[0] + i * dx, start[1] + i * dy) for i in range(n + 1)]
    for _ in range(rnd.randint(1, 4)):  # the others strictly left of it: up to nine steps across, three along, and perhaps one more
        k, j = rnd.randint(1, 9), rnd.randint(-3, 3)
        P.append((j * dx - k * dy + rnd.randint(-1, 1), j * dy + k * dx + rnd.randint(-1, 1)))
    P, g = sorted(set(P)), math.gcd(dx, dy)
    return chart_at(rnd, P), [(start[0] + dx // g * i, start[1] + dy // g * i) for i in range(-3, n * g + 4)]


def large_fan(rnd):
    """A vertex of the largest degrees, in the middle, and values at both ends of their range: the largest sums of a gradient."""
    r, n = rnd.choice([9000, 9999]), rnd.randint(40, 126)
    rim = [(round(r * math.cos(2 * math.pi * i / n)), round(r * math.sin(2 * math.pi * i / n))) for i in range(n)]
    P = list(dict.fromkeys([(0, 0)] + rim))
    vals = [1000000 * (i % 2) for i in range(len(P))] if rnd.random() < 0.5 else [rnd.choice([0, 1000000]) for _ in P]
    return chart_at(rnd, P, vals), around((0, 0), 2) + [(rnd.randint(-r, r), rnd.randint(-r, r)) for _ in range(20)]


# letter, how many charts in a hundred accepted ones, and at least; the charts of t and v are large
RIMS = [('p', arc, 10, 4), ('q', nearly_a_circle, 10, 4), ('r', corner_needle, 10, 4), ('s', small_lattice, 10, 4), ('t', sweep, 2, 2),
        ('u', straight_side, 10, 4), ('v', large_fan, 2, 2)]


def rims(rnd, write, accepted):
    for letter, make, percent, least in RIMS:
        for i in range(max(least, percent * accepted // 100)):
            c = None
            while c is None: c, q = make(rnd)
            t = c.text()
            n = refusal(t)
            assert n == 0, (letter, n)
            q = sorted({p for p in q if max(map(abs, p)) <= G + 1})
            rnd.shuffle(q)
            p = '%s%04d' % (letter, i)
            write(p, 'chart.txt', t)
            write(p, 'expect.txt', '0 %s\n' % make.__name__.replace('_', ' '))
            write(p, 'queries.txt', query_text(q[:400]))
            write(p, 'log.txt', whole_log(entries(rnd, q, 30, 2)))


# ---------------------------------------------------------------- charts that 11 alone refuses, and their like that it lets pass


def flips(rnd, pts, opp, n, sign):
    """Flips up to n edges of strictly convex quadrilaterals: whose corners are on a circle (sign 0: all stays right), that 11 refuses (1),
    or others (-1: 11 then refuses them). Returns how many are left to do."""
    for a, b in rnd.sample(sorted(opp), len(opp)):
        if n == 0 or (a, b) not in opp or (b, a) not in opp: continue
        A, B, C, D = [pts[i] for i in (a, b, opp[a, b], opp[b, a])]
        t = circle(A, B, C, D)
        if side(D, C, A) > 0 > side(D, C, B) and (t > 0) - (t < 0) == sign:
            flip(opp, a, b)
            n -= 1
    return n


def join(pts, opp, z):
    """Joins z to the hull sides that it sees, or to the corners of the face that holds it; whether there are such."""
    left = lambda a, b: side(pts[a], pts[b], pts[z])
    sides = [(b, a) for a, b in opp if (b, a) not in opp and left(b, a) > 0]
    if not sides: sides = next(([(a, b), (b, c), (c, a)] for (a, b), c in opp.items() if min(left(a, b), left(b, c), left(c, a)) > 0), [])
    for a, b in sides: opp[a, b], opp[b, z], opp[z, a] = z, a, b
    return sides != []


def on_a_circle(rnd, most):
    ring = large_circle(rnd)
    return rnd.sample(ring, min(len(ring), most))


def flipped(rnd, most, right):
    """A Delaunay chart with one edge flipped, or several; where right, such as have their corners on a circle."""
    P = on_a_circle(rnd, most) if right and rnd.random() < 0.5 else points(rnd, most)[1]
    opp = delaunay(P, rnd) if len(P) > 3 else None
    n = rnd.choice([1, 1, 1, 2, 3, 12, 99])
    if opp is None or flips(rnd, P, opp, n, 0 if right else -1) == n: return None
    return chart_of(P, opp, values(rnd, P), rnd)


def joined(rnd, most, right):
    """A Delaunay chart and one more test, joined without the flips that it calls for, or with one or two of them. It is inside the circles of
    faces far away, and only edges near it show that. Where right, it is on their circle or a step outside."""
    kind = 'circle' if right else rnd.choice(['circle', 'any', 'curve', 'circle', 'curve'])
    if kind == 'any': P = points(rnd, most)[1]
    if kind == 'circle':
        P, step = on_a_circle(rnd, most), rnd.choice([0, 1]) if right else -1
        P[-1] = tuple(n + step * ((n > 0) - (n < 0)) for n in P[-1])
    if kind == 'curve':  # as f23
        P = [(64 * i, 3000 - i * (i + 1) // 2) for i in range(most - 4)] + [(-8500, 8500), (2000, 5500), (9500, -7000)]
        P.append((rnd.randint(-1600, -1400), rnd.randint(2400, 2600)))
    opp = delaunay(P[:-1], rnd) if len(P) > 3 else None
    if opp is None or not join(P, opp, len(P) - 1): return None
    flips(rnd, P, opp, rnd.choice([0, 0, 0, 1, 2]), 1)
    return chart_of(P, opp, values(rnd, P), rnd)


def pressed(c):
    """The edges across which the third corner of one face is strictly inside the circle of the other."""
    across = lambda h: circle(c.frm(h), c.to(h), c.frm(c.prv(h)), c.frm(c.prv(h ^ 1)))
    return [h // 2 for h in range(0, len(c.h), 2) if c.face(h) and c.face(h ^ 1) and across(h) > 0]


def renumbered(c, order):
    """The chart whose edge i is c's edge order[i]."""
    new = {k: i for i, k in enumerate(order)}
    at = lambda h: 2 * new[h // 2] + h % 2
    half = [None] * len(c.h)
    for h, (o, n, p, f) in enumerate(c.h): half[at(h)] = [o, at(n), at(p), f]
    return Chart([r[:3] + [at(r[3])] for r in c.v], half, [at(a) for a in c.f])


def circles(rnd, write, accepted, maxv):
    """A port may test 11 across each edge, and not every vertex against every circle: the edges that show it are the last ones, the first
    ones or any, and many crowded faces are far from them. Every fifth chart is right, every fourth has up to 128 vertices."""
    for letter, make in (('w', flipped), ('y', joined)):
        for i in range(max(10, accepted // 5)):
            c, right, show = None, i % 5 == 4, []
            while c is None or right == (show != []):
                c = make(rnd, 128 if i % 4 == 0 else max(4, min(maxv, rnd.choice([4, 5, 6, 8, 12, 30, 64, 128]))), right)
                show = pressed(c) if c else []
            rest = [k for k in range(len(c.h) // 2) if k not in show]
            c = renumbered(c, [rest + show, show + rest, sorted(rest + show)][i % 3])
            p, t = '%s%04d' % (letter, i), c.text()
            n = refusal(t)
            assert n == (0 if right else 11), (p, n)  # by every vertex and circle the same as by edges
            write(p, 'chart.txt', t)
            write(p, 'expect.txt', '%d %s\n' % (n, make.__name__))
            write(p, 'rooms.txt', '%d\n%d\n' % (len(c.h) - 1, len(c.h)))
            if right: write(p, 'queries.txt', query_text(queries(rnd, c)[:6]))


# ---------------------------------------------------------------- damage


def damage(rnd, c):
    """(kind, bytes) of a chart with one damage, or None when it does not apply."""
    v, h, f = [r[:] for r in c.v], [r[:] for r in c.h], c.f[:]
    nv, nh, nf = len(v), len(h), len(f)
    t = c.text()
    W = lambda: Chart(v, h, f).text()
    def put(at, s): return t[:at] + s + t[at + len(s):]
    def field_at():  # a random field's start: of the first line, or of the tables
        if rnd.random() < 0.3: return 8 * rnd.randrange(3)
        k = rnd.randrange(nv + nh + nf)
        return 25 + 33 * k + 8 * rnd.randrange(4) if k < nv + nh else 25 + 33 * (nv + nh) + 9 * (k - nv - nh)
    kind = rnd.choice(DAMAGES)
    if kind == 'short': return kind, t[:rnd.choice([0, 1, 24, 25, rnd.randrange(len(t))])]
    if kind == 'long': return kind, t + rnd.choice([b'\n', b' ', t[-9:], b'       0\n'])
    if kind == 'counts':
        k = rnd.randrange(3)
        n = rnd.choice([0, 1, 2, 3, 4, 5, 6, 7, 128, 129, 252, 253, 755, 756, 757, 758, -3, -6, 99999999, -9999999, (nv, nh, nf)[k] + rnd.choice([-2, -1, 1, 2])])
        return kind, put(8 * k, b'%8d' % n)
    if kind == 'field':
        return kind, put(field_at(), rnd.choice(FIELDS))
    if kind == 'byte':
        return kind, put(rnd.randrange(len(t)), bytes([rnd.choice(b' -0123456789+\r\nx\x00\xff')]))
    if kind == 'lf':
        ends = [i for i, b in enumerate(t) if b == 10]
        return kind, put(rnd.choice(ends), rnd.choice([b'\r', b' ', b'0', b'\x00']))
    if kind == 'crlf':
        return kind, t.replace(b'\n', b'\r\n')
    if kind == 'range':
        k = rnd.randrange(9)
        if k < 2: v[rnd.randrange(nv)][k] = rnd.choice([G + 1, -G - 1, 99999999, -9999999])
        if k == 2: v[rnd.randrange(nv)][2] = rnd.choice([-1, 1000001, 99999999])
        if k == 3: v[rnd.randrange(nv)][3] = rnd.choice([-1, nh])
        if 4 <= k < 8: h[rnd.randrange(nh)][k - 4] = rnd.choice([-1, (nv, nh, nh, nf)[k - 4]])
        if k == 8: f[rnd.randrange(nf)] = rnd.choice([-1, nh])
        return kind, W()
    if kind == 'edge-of-range':  # values at the ends of their ranges: no damage by themselves
        v[rnd.randrange(nv)][2] = rnd.choice([0, 1000000])
        return kind, W()
    if kind == 'link':
        k = rnd.randrange(9)
        i = rnd.randrange(nh)
        if k == 0: h[i][0] = rnd.randrange(nv)
        if k == 1: h[i][1] = rnd.randrange(nh)
        if k == 2: h[i][2] = rnd.randrange(nh)
        if k == 3: h[i][3] = rnd.randrange(nf)
        if k == 4: v[rnd.randrange(nv)][3] = rnd.randrange(nh)
        if k == 5: f[rnd.randrange(nf)] = rnd.randrange(nh)
        if k == 6: h[i], h[i ^ 1] = h[i ^ 1], h[i]
        if k == 7:
            a, b = rnd.randrange(nf), rnd.randrange(nf)
            f[a], f[b] = f[b], f[a]
        if k == 8:
            a, b = rnd.randrange(nh), rnd.randrange(nh)
            h[a], h[b] = h[b], h[a]
        return kind, W()
    if kind == 'swap-next-prev':  # one inner face turned round
        g = rnd.randrange(1, nf)
        for e in c.edges_of(g): h[e][1], h[e][2] = h[e][2], h[e][1]
        return kind, W()
    if kind == 'mirror':  # all links right, every face right-turning
        for r in v: r[0] = -r[0]
        return kind, W()
    if kind == 'reversed':  # every half-edge turned: faces right-turning, links right
        o = [r[0] for r in h]
        for i, r in enumerate(h): r[0], r[1], r[2] = o[i ^ 1], r[2], r[1]
        for r in v: r[3] ^= 1
        return kind, W()
    if kind == 'drop-face':  # an inner face at the hull made outer: a dent (10), or two outer half-edges at a vertex (7)
        cand = [g for g in range(1, nf) if any(c.face(e ^ 1) == 0 for e in c.edges_of(g))]
        if nf < 3: return None
        g = rnd.choice(cand)
        es = c.edges_of(g)
        hull = [e for e in es if c.face(e ^ 1) == 0]
        if len(hull) != 1 or any(h[e ^ 1][3] == 0 for e in es if e != hull[0]): return None
        e = hull[0]
        o = e ^ 1
        p, n = h[o][2], h[o][1]  # outer before and after
        a, b = h[e][1], h[e][2]  # the other two edges of the face: to(e) -> apex -> from(e)
        # outer path was p, o (to(e) -> from(e)), n; now p, a, b, n; edges e and o go
        h[p][1], h[a][2], h[b][1], h[n][2] = a, p, n, b
        h[a][3] = h[b][3] = 0
        for x in v:
            if x[3] in (e, o): x[3] = n if x[3] == e else a
        if f[0] == o: f[0] = a
        # renumber: last pair into e's pair, last face into g
        lo, last = e & ~1, nh - 2
        mv = lambda i: lo + (i & 1) if i >= last and lo != last else i
        if lo != last: h[lo], h[lo + 1] = h[last], h[last + 1]
        del h[last:]
        for r in h: r[1], r[2] = mv(r[1]), mv(r[2])
        for x in v: x[3] = mv(x[3])
        f = [mv(x) for x in f]
        if g != nf - 1:
            f[g] = f[nf - 1]
            for r in h:
                if r[3] == nf - 1: r[3] = g
        f.pop()
        return kind, Chart(v, h, f).text()
    if kind == 'flip':  # an inner edge flipped where the quad is strictly convex: 11, or right where co-circular
        es = [e for e in range(0, nh, 2) if 0 not in (c.face(e), c.face(e ^ 1))]
        rnd.shuffle(es)
        for e in es:
            o = e ^ 1
            a, b, p, q = c.org(e), c.org(o), c.org(c.prv(e)), c.org(c.prv(o))
            A, B, P, Q = map(c.at, (a, b, p, q))
            if side(Q, P, A) > 0 and side(P, Q, B) > 0:
                en, ep, on, op = h[e][1], h[e][2], h[o][1], h[o][2]
                # faces: e: q->p with p->a (ep), a->q (on); o: p->q with q->b (op), b->p (en)
                fe, fo = h[e][3], h[o][3]
                h[e], h[o] = [q, ep, on, fe], [p, op, en, fo]
                h[ep][1:] = [on, e, fe]
                h[on][1:] = [e, ep, fe]
                h[op][1:] = [en, o, fo]
                h[en][1:] = [o, op, fo]
                f[fe], f[fo] = rnd.choice([e, ep, on]), rnd.choice([o, op, en])
                v[a][3], v[b][3] = on, en
                return kind, W()
        return None
    if kind == 'move':  # a vertex elsewhere: 8, 9, 10, 11, or still right
        i = rnd.randrange(nv)
        k = rnd.randrange(4)
        if k == 0: v[i][:2] = v[rnd.randrange(nv)][:2]
        elif k == 1: v[i][:2] = [v[i][0] + rnd.randint(-1, 1), v[i][1] + rnd.randint(-1, 1)]
        elif k == 2: v[i][:2] = [rnd.randint(-100, 100), rnd.randint(-100, 100)]
        else:
            s = max(2, max(abs(v[i][0]), abs(v[i][1])) // 10)
            v[i][:2] = [v[i][0] + rnd.randint(-s, s), v[i][1] + rnd.randint(-s, s)]
        return kind, W()
    if kind == 'two-parts':  # a second component: a triangle or a lone edge; links right, 10 (or 8, 9)
        lone = rnd.random() < 0.4
        if nv + 3 > 128 or nh + 6 > 756 or nf + 1 > 252: return None
        x, y = rnd.choice([(rnd.randint(-9000, 9000), rnd.randint(-9000, 9000)), c.at(rnd.randrange(nv)), (20, 30)])
        P = [(x, y), (x + rnd.randint(1, 50), y), (x, y + rnd.randint(1, 50))]
        if lone:
            v += [[*P[0], 5, nh], [*P[1], 6, nh + 1]]
            h += [[nv, nh + 1, nh + 1, 0], [nv + 1, nh, nh, 0]]
        else:
            v += [[*P[0], 5, nh], [*P[1], 6, nh + 2], [*P[2], 7, nh + 4]]
            for j in range(3):
                h.append([nv + j, nh + 2 * ((j + 1) % 3), nh + 2 * ((j + 2) % 3), nf])
                h.append([nv + (j + 1) % 3, nh + 2 * ((j + 2) % 3) + 1, nh + 2 * ((j + 1) % 3) + 1, 0])
            f.append(nh)
        return kind, W()
    if kind == 'no-outer':  # face 0's adjacent half-edge inside
        f[0] = rnd.choice([e for e in range(nh) if c.face(e) != 0])
        return kind, W()
    if kind == 'face-split':  # an inner face's half-edges given to a face that has others (face-edges clause)
        g = rnd.randrange(1, nf)
        k = rnd.randrange(1, nf)
        for e in c.edges_of(g): h[e][3] = k
        return kind, W()
    if kind == 'outer-as-inner':  # faces 0 and g exchange their numbers
        g = rnd.randrange(1, nf)
        for r in h: r[3] = {0: g, g: 0}.get(r[3], r[3])
        f[0], f[g] = f[g], f[0]
        return kind, W()
    if kind in ('merge', 'pinch'):  # two vertices become one: neighbours (same-origin), or strangers (a pinched vertex, links right)
        a = rnd.randrange(nv)
        near = {c.org(e ^ 1) for e in range(nh) if c.org(e) == a}
        cand = sorted(near if kind == 'merge' else set(range(nv)) - near - {a})
        if not cand or nv < 4: return None
        b = rnd.choice(cand)
        for r in h:
            if r[0] == b: r[0] = a
        if b != nv - 1:
            v[b] = v[nv - 1]
            for r in h:
                if r[0] == nv - 1: r[0] = b
        v.pop()
        return kind, W()
    if kind == 'digon':  # an edge doubled, an inner face of two half-edges between
        if nh + 2 > 756 or nf + 1 > 252: return None
        o = rnd.randrange(nh)
        n, m = nh, nh + 1
        b, on, op, of = h[o]
        h += [[h[o ^ 1][0], o, o, nf], [b, on, op, of]]
        h[op][1] = h[on][2] = m
        if f[of] == o: f[of] = m
        h[o] = [b, n, n, nf]
        f.append(rnd.choice([n, o]))
        return kind, W()
    if kind in ('one-number', 'hole'):  # two faces under one number: inner ones (face-edges), or an inner one as outer (a hole)
        if nf < 3: return None
        g = rnd.randrange(1, nf)
        k = 0 if kind == 'hole' else rnd.choice([i for i in range(1, nf) if i != g])
        for e in c.edges_of(g): h[e][3] = k
        if g != nf - 1:
            f[g] = f[nf - 1]
            for r in h:
                if r[3] == nf - 1: r[3] = g
        f.pop()
        return kind, W()
    raise AssertionError(kind)


FIELDS = [b'        ', b'      -0', b'      00', b'      +1', b'      1 ', b'     - 1', b'     1-1', b'       -', b'      1x', b'00000000', b'-0000001',
          b'  1 2   ', b'\t      1', b'      \n1', b'     1.0', b'0      1', b'      01', b'     --1', b'     -01', b'12345678', b'-1234567', b'      -1',
          b'       /', b'       :', b'1       ', b'       \x00', b'      0x', b'     1e1', b'     1,0', b'       \xb1']

DAMAGES = ['short', 'long', 'counts', 'field', 'field', 'byte', 'lf', 'crlf', 'range', 'range', 'edge-of-range', 'link', 'link', 'link', 'swap-next-prev', 'mirror',
           'reversed', 'drop-face', 'drop-face', 'flip', 'flip', 'flip', 'move', 'move', 'move', 'move', 'two-parts', 'no-outer', 'face-split', 'outer-as-inner',
           'merge', 'pinch', 'pinch', 'digon', 'one-number', 'hole', 'hole']


def damaged(rnd, c):
    """One damage, or sometimes two (the order of the table decides)."""
    while True:
        d = damage(rnd, c)
        if d is None: continue
        kind, b = d
        if rnd.random() < 0.25:
            n, c2 = parse(b)
            if n == 0 and table_faults(c2) in (0, 8, 9, 10, 11):
                e = damage(rnd, c2)
                if e: kind, b = kind + '+' + e[0], e[1]
        return kind, b


TRIANGLE = """       3       6       2
       0       0     100       0
      10       0     200       2
       0      10     300       4
       0       2       4       1
       1       5       3       0
       1       4       0       1
       2       1       5       0
       2       0       2       1
       0       3       1       0
       1
       0
"""
LOG = """       1       0       2       3       1
       1       1       5      -1       1
       2       0       0       0       0
       1       0       5       0       2
"""


def fixed(rnd, write):
    """Cases that are the same in every suite but for numbering: the paper's example, the largest charts, the rims of counts."""
    write('f00', 'chart.txt', TRIANGLE)
    write('f00', 'queries.txt', '10 0\n5 0\n5 5\n2 3\n5 -1\n6 5\n10 10\n9 9\n')
    write('f00', 'log.txt', LOG)
    write('f00', 'expect.txt', '0 triangle A\n')
    write('f01', 'log.txt', LOG)  # no chart.txt: counts as empty
    write('f01', 'expect.txt', '3 no file\n')

    ok = '       1       0       2       3       1\n'
    bad = '       1       0       2       3      +1\n'
    logs = ['', ok, ok * 512, ok * 513, ok * 513 + '\n', ok * 512 + '\n', bad, ok * 511 + bad, ok * 512 + bad, bad + '\n', ok[:-1], ok[:-1] + '\r', '\n',
            whole_log((
                (1, 0, G + 1, 0, 4), (1, 0, G + 1, 0, 1), (1, 0, 0, -G - 1, 3), (1, 2, G + 1, 0, 1), (0, 0, G + 1, 0, 1), (3, 0, 0, 0, 0), (1, 0, 50, 50, 0), (1, 0, 50, 50, 1),
                (2, 0, G + 1, 0, 0), (2, 0, 0, 0, 1), (2, 2, 0, 0, 0), (2, -1, 0, 0, 0), (2, 1, 0, 0, 0), (1, 1, 10, 0, 3), (1, 1, 3, 3, 2), (2, 1, 0, 0, 0),
                (99999999, 99999999, 99999999, 99999999, 99999999), (-9999999, 0, 0, 0, 0)))]
    for i, l in enumerate(logs):
        for p, ch in (('l%02da' % i, TRIANGLE), ('l%02db' % i, TRIANGLE[:-1] + '\r')):
            write(p, 'chart.txt', ch)
            write(p, 'expect.txt', '%d logs\n' % refusal(ch.encode()))
            write(p, 'log.txt', l)

    def put(p, P, note):
        opp = delaunay(P, rnd)
        c = chart_of(P, opp, values(rnd, P), rnd)
        n = refusal(c.text())
        write(p, 'chart.txt', c.text())
        write(p, 'expect.txt', '%d %s\n' % (n, note))
        write(p, 'rooms.txt', '%d\n%d\n' % (len(c.h) - 1, len(c.h)))
        if n == 0:
            q = queries(rnd, c)
            write(p, 'queries.txt', query_text(q))
            write(p, 'log.txt', whole_log(entries(rnd, q, 512, 2)))
            write(p, 'batch.txt', batch_text(rnd, q))

    def inside(n):  # hull of three: 2n - 5 inner faces
        P = {(-10000, -10000), (10000, -10000), (0, 10000)}
        while len(P) < n: P.add((rnd.randint(-2000, 2000), rnd.randint(-9000, 0)))
        return sorted(P)

    put('f02', inside(128), '128 vertices, 756 half-edges, 252 faces')
    put('f03', inside(129), '129 vertices, 762 half-edges, 254 faces')
    conv = [(t, t * t - 5000) for t in range(-64, 65)]
    put('f04', conv[:128], '128 vertices, all on the hull')
    put('f05', conv, '129 vertices, all on the hull, other counts in range')
    put('f06', [(10000, 10000), (-10000, 10000), (10000, -10000), (-10000, -10000)], 'the corners of the grid')
    put('f07', [(-10000, -10000), (10000, 9999), (9999, 9998)], 'the thinnest triangle')
    put('f08', [(-10000, y) for y in range(-60, 60)] + [(10000, 0)], 'a fan of 119 faces over a straight hull side')
    # natural weights that come out as -0 and the largest rounding errors found in 116,000 tries
    needles = [([(-9990, 9989), (-1, 1), (1, -1), (2209, -2208), (9989, -9989)], (0, 0)),
               ([(-9991, 9991), (-9989, 9989), (-1, 2), (0, 1), (1, 1), (9989, -9990), (9990, -9991)], (-9990, 9990)),
               ([(-9001, -8991), (-7001, -6993), (-1, 0), (0, 0), (999, 998), (1000, 998), (6000, 5995)], (-8001, -7992))]
    for i, (P, q) in enumerate(needles):
        for j in range(4):
            p = 'f%d' % (10 + 4 * i + j)
            c = chart_of(P, delaunay(P, rnd), values(rnd, P), rnd)
            write(p, 'chart.txt', c.text())
            write(p, 'expect.txt', '0 needle\n')
            write(p, 'queries.txt', '%d %d\n' % q)
    put('f09', lattice_circle(5525)[:48] + [(0, 0)], 'one vertex in the middle of a lattice circle')

    def widest(p, P, opp, q, note):  # loads that have every vertex as a neighbour: no search opens more faces (README.md)
        c = chart_of(P, opp, [i * 7919 % 1000001 for i in range(len(P))], random.Random(1))
        f = locate(c, q[0])[1]
        c.f[f] = next(h for h in c.edges_of(f) if c.face(h ^ 1) == 0 and c.face(c.nxt(h) ^ 1))  # the stack is then deepest
        write(p, 'chart.txt', c.text())
        write(p, 'expect.txt', '%d %s\n' % (refusal(c.text()), note))
        write(p, 'rooms.txt', '%d\n%d\n' % (len(c.h) - 1, len(c.h)))
        write(p, 'queries.txt', query_text(q))

    ring = sorted(((11 * x, 11 * y) for x, y in lattice_circle(801125)), key=lambda a: math.atan2(a[1], a[0]))
    fan = {}
    for i in range(1, 127): fan[0, i], fan[i, i + 1], fan[i + 1, 0] = i + 1, 0, i
    widest('f22', ring, fan, [(-9794, -851), (0, 0)], '128 vertices on a circle, 126 faces to open in a fan; from a face, and from an edge')
    curve = [(64 * i, 3000 - i * (i + 1) // 2) for i in range(125)] + [(-8500, 8500), (2000, 5500), (9500, -7000)]
    widest('f23', curve, delaunay(curve, random.Random(1)), [(-1500, 2500)], '128 vertices, 756 half-edges, 252 faces, 126 of them to open')

    straight(write)


def straight(write):
    """Corners on a line: of a hull side, which is accepted, and of an inner face, which 9 refuses. The same numbering in every suite."""
    rnd = random.Random(1)

    def put(p, P, faces, q, note):
        opp = {}
        for a, b, c in faces: opp[a, b], opp[b, c], opp[c, a] = c, a, b
        t = chart_of(P, opp, [100 * (i + 1) for i in range(len(P))], rnd).text()
        n = refusal(t)
        write(p, 'chart.txt', t)
        write(p, 'expect.txt', '%d %s\n' % (n, note))
        if n == 0: write(p, 'queries.txt', query_text(q))
        write(p, 'log.txt', whole_log((1, 0, *x, m) for x in q for m in (1, 2, 3)))

    along = [(x, 0) for x in (-1, 0, 1, 3, 6, 9, 12, 13)] + [(6, 1), (6, -1), (5, 1), (7, 2)]
    put('f24', [(0, 0), (3, 0), (4, 0), (9, 0), (12, 0), (6, 5)], [(i, i + 1, 5) for i in range(4)], along, 'a hull side through five vertices')
    for p, y, note in (('f25', 0, 'an inner face whose corners lie on a line'), ('f26', 1, 'the same, its middle corner one step inside'),
                       ('f27', -1, 'the same, one step outside')):
        put(p, [(0, 0), (6, y), (12, 0), (6, 9)], [(0, 1, 3), (1, 2, 3), (1, 0, 2)], along, note)


def numbered(write, name, rooms):
    """Puts charts' bytes as cases, numbered from 0 on; the same queries in every suite."""
    number, rnd = itertools.count(), random.Random(1)

    def put(b, note):
        p, n = name % next(number), refusal(b)
        write(p, 'chart.txt', b)
        write(p, 'rooms.txt', rooms)
        write(p, 'expect.txt', '%d %s\n' % (n, note))
        if n == 0: write(p, 'queries.txt', query_text(queries(rnd, parse(b)[1])[:6]))

    return put


def systematic(write):
    """Triangle A with one thing changed, for every cell and every rule of the text."""
    put = numbered(write, 'g%04d', '5\n6\n')
    t = TRIANGLE.encode()
    cells = [8 * k for k in range(3)] + [25 + 33 * r + 8 * k for r in range(9) for k in range(4)] + [322, 331]
    for col, rims in ((0, (2, 3, 4, 127, 128, 129)), (1, (4, 5, 6, 7, 8, 755, 756, 757, 758)), (2, (1, 2, 3, 251, 252, 253))):
        for r in rims: put(t[:8 * col] + b'%8d' % r + t[8 * col + 8:], 'count %d is %d' % (col, r))
    for at in cells[3:]:
        for r in (-1, 0, 1, 2, 3, 4, 5, 6, 7, G, G + 1, -G, -G - 1, 1000000, 1000001, 99999999, -9999999):
            put(t[:at] + b'%8d' % r + t[at + 8:], 'cell at %d is %d' % (at, r))
    for at in (0, 8, 16, 25, 33, 49, 124, 148, 322, 331):
        for s in FIELDS: put(t[:at] + s + t[at + 8:], 'field at %d' % at)
    for i, b in enumerate(t):
        if b == 10:
            for s in (b'\r', b' ', b'0', b'\x0b'): put(t[:i] + s + t[i + 1:], 'line end at %d' % i)
    for k in (0, 1, 24, 25, 26, 339): put(t[:k], 'first %d bytes' % k)
    for s in (b'\n', b'       0\n', b' '): put(t + s, 'longer')
    c = parse(t)[1]
    for h in range(6):  # a face and a vertex that no half-edge names
        put(Chart(c.v, c.h, c.f + [h]).text(), 'an empty face, the last')
        put(Chart(c.v, [r[:3] + [2 * r[3]] for r in c.h], [c.f[0], h, c.f[1]]).text(), 'an empty face')
        put(Chart(c.v + [[5, 5, 0, h]], c.h, c.f).text(), 'a lone vertex')


def any_bytes(write):
    """What is no chart at all: too short, longer than the largest chart (31,465 bytes) and than a buffer of 65,536, huge counts, bytes
    above 127."""
    put = numbered(write, 'x%02d', '0\n6\n756\n')
    t, row = TRIANGLE.encode(), b'       0       0       0       0\n'
    head = b'     128     756     252\n'
    full = head + row * 884 + b'       0\n' * 252
    long = lambda h, size: (h + row * 2000)[:size]
    put(b'', 'no bytes')
    put(head[:24], '24 bytes')
    put(head, 'the first line of the largest chart alone')
    put(full, 'as long as the largest chart, all zeros')
    put(full[:-1] + b'\xff', 'its last byte above 127')
    put(full + b'\n', 'one byte longer than the largest chart')
    put(long(head, 65536), 'a buffer full')
    put(long(b'       3       6       2\n', 65537), 'longer than a buffer')
    put(long(b'     129     756     252\n', 65537), 'longer than a buffer, counts out of range')
    put(long(b'     128     756    +252\n', 65537), 'longer than a buffer, line 1 malformed')
    for k in range(3): put(t[:8 * k] + b'99999999' + t[8 * k + 8:], 'a huge count')
    for k in range(3): put(t[:8 * k] + b'-9999999' + t[8 * k + 8:], 'a huge negative count')
    put(b'99999999' * 3 + t[24:], 'huge counts')
    put(b'\xff' * 24, '24 bytes of 255')
    put(b'\xff' * 25, '25 bytes of 255')
    put(b'\x00' * 340, '340 zeros')
    put(bytes(b | 128 for b in t), 'every byte above 127')
    put(b'\xef\xbb\xbf' + t, 'a byte order mark')
    put(t.replace(b' ', b'\xa0'), 'other blanks')
    put(t.replace(b'\n', b'\r\n'), 'line ends of two bytes')
    put(t + t, 'twice the chart')


def link_cases(rnd, write):
    """Each clause of 'Links' broken alone (prev of next and next of prev can only break together)."""
    global DAMAGES
    want = {('next-start',): 3, ('same-origin',): 3, ('next-of-prev', 'prev-of-next'): 3, ('next-face',): 3, ('three-nexts',): 3, ('face-edges',): 3,
            ('out-start',): 3, ('two-outer',): 3, ('adjacent-face',): 3}
    keep, DAMAGES = DAMAGES, ['link', 'link', 'link', 'merge', 'digon', 'one-number', 'no-outer', 'drop-face']
    k = 0
    for _ in range(6000):
        if not any(want.values()): break
        P = sorted({(rnd.randint(-9, 9), rnd.randint(-9, 9)) for _ in range(rnd.randint(5, 9))})
        opp = delaunay(P, rnd) if len(P) > 4 else None
        if opp is None: continue
        d = damage(rnd, chart_of(P, opp, values(rnd, P), rnd))
        if d is None: continue
        n, c = parse(d[1])
        if n or table_faults(c) != 7: continue
        key = tuple(sorted(link_faults(c)))
        if want.get(key):
            want[key] -= 1
            write('k%04d' % k, 'chart.txt', d[1])
            write('k%04d' % k, 'expect.txt', '7 %s\n' % ' '.join(key))
            k += 1
    DAMAGES = keep
    print('clauses not met alone:', [w for w in want if want[w]])


def hunt(rnd, write):
    """Small charts with a query whose value by method 3 lies in each range that the charge tells apart."""
    half = [(-1.5, -1), (-1, -0.5), (-0.5, 0), (0, 0.5), (0.5, 1), (1000000, 1000000.5), (1000000.5, 1000001)]
    left, k = {r: 3 for r in half}, 0
    for _ in range(4000):
        if not any(left.values()): break
        P = sorted({(rnd.randint(-6, 6), rnd.randint(-6, 6)) for _ in range(rnd.randint(4, 8))})
        if len(P) < 4: continue
        opp = delaunay(P, rnd)
        if opp is None: continue
        low = rnd.random() < 0.6
        c = chart_of(P, opp, [rnd.choice([0, 0, 1, 2, 5] if low else [1000000, 1000000, 999999, 999998, 999990]) for _ in P], rnd)
        grads = [gradient(c, i) for i in range(len(c.v))]
        qs = []
        for x in range(-6, 7):
            for y in range(-6, 7):
                v = value(c, grads, (x, y), 3)
                if isinstance(v, float):
                    for r in half:
                        if r[0] < v < r[1] and left[r]:
                            left[r] -= 1
                            qs.append((x, y))
        if qs:
            write('h%04d' % k, 'chart.txt', c.text())
            write('h%04d' % k, 'expect.txt', '0 values at the rims of the charge\n')
            write('h%04d' % k, 'queries.txt', query_text(qs))
            write('h%04d' % k, 'log.txt', whole_log((1, 0, *q, 3) for q in qs))
            bends = ' '.join('1 0 %d %d 3' % q for q in qs)  # on a section whose count is full, and after its splice
            write('h%04d' % k, 'batch.txt', '1 0 %d\n0 %d\n' % (len(qs), 10 ** 12) + '0 0\n' * 15 + bends + '\n%d 0\n2 0 0 0 0 %s\n' % (len(qs) + 1, bends))
            k += 1
    print('ranges of method 3 not met:', [r for r in half if left[r]])


def main():
    d, seed, na, nd = sys.argv[1], int(sys.argv[2]), int(sys.argv[3]), int(sys.argv[4])
    maxv = int(sys.argv[5]) if len(sys.argv) > 5 else 128
    rnd = random.Random(seed)
    loads = random.Random('loads %d' % seed)  # of their own, as lists of batches and rims: the other families stay as they were
    kinds, refusals = collections.Counter(), collections.Counter()
    clauses = collections.Counter()
    def write(p, f, b):
        os.makedirs(os.path.join(d, p), exist_ok=True)
        open(os.path.join(d, p, f), 'wb').write(b if isinstance(b, bytes) else b.encode())
    fixed(rnd, write)
    systematic(write)
    any_bytes(write)
    hunt(rnd, write)
    link_cases(rnd, write)
    for i in range(na):
        kind, c = accepted(rnd, maxv)
        kinds[kind] += 1
        t = c.text()
        n = refusal(t)
        assert n == 0, (kind, n)
        p = 'a%05d' % i
        q = queries(rnd, c)
        write(p, 'chart.txt', t)
        write(p, 'expect.txt', '0 %s\n' % kind)
        write(p, 'queries.txt', query_text(q))
        write(p, 'log.txt', log_text(rnd, entries(rnd, q, rnd.randint(0, 30), 2)))
        write(p, 'batch.txt', batch_text(rnd, q))
        write(p, 'rooms.txt', '%d\n%d\n%d\n' % (len(c.h) - 1, len(c.h), 756))
    for i in range(nd):
        kind, c = accepted(rnd, min(maxv, rnd.choice([3, 5, 12, 30, 128])))
        kind, b = damaged(rnd, c)
        n = refusal(b)
        refusals[n] += 1
        if n == 7: clauses[' '.join(sorted(link_faults(parse(b)[1])))] += 1
        p = 'd%05d' % i
        write(p, 'chart.txt', b)
        write(p, 'expect.txt', '%d %s\n' % (n, kind))
        write(p, 'rooms.txt', '0\n5\n%d\n756\n' % len(c.h))
        q = queries(rnd, c, 8)
        write(p, 'log.txt', log_text(rnd, entries(rnd, q, rnd.randint(0, 3), 2)))
        write(p, 'batch.txt', batch_text(rnd, q))
        if n == 0: write(p, 'queries.txt', query_text(queries(loads, parse(b)[1])))
    rnd = random.Random('lists of batches %d' % seed)
    for i in range(na):
        kind, c = accepted(rnd, min(maxv, rnd.choice([3, 5, 12, 128])))
        b = c.text() if i % 5 else damaged(rnd, c)[1]
        p = 'b%05d' % i
        write(p, 'chart.txt', b)
        write(p, 'expect.txt', '%d a list of batches, %s\n' % (refusal(b), kind))
        q = queries(rnd, c, 8)
        write(p, 'batch.txt', list_text(rnd, q))
        if refusal(b) == 0: write(p, 'queries.txt', query_text(queries(loads, parse(b)[1])))
    rims(random.Random('rims %d' % seed), write, na)
    circles(random.Random('circles %d' % seed), write, na, maxv)
    print('accepted:', dict(kinds))
    print('damaged, by refusal:', dict(sorted(refusals.items())))
    print('clauses of 7:', dict(clauses.most_common(40)))


if __name__ == '__main__':
    sys.setrecursionlimit(10000)
    main()
