#!/usr/bin/env python3
"""New bench tests (02, CR 13): a stream of charts and tests, and a judge of what was answered.

    inserts.py make SEED CHARTS [MAXV] >STREAM   charts of every family, each with tests; triangle A filled; a chart grown to 128 vertices
    inserts.py judge STREAM ANSWERS              holds the answers against 02 alone: by this reading's own refusals, chart check and
                                                 location, and by a Delaunay triangulation of the vertices made anew

README.md has the formats. The judge leaves free what 02 does: links, and the triangles where four vertices share an empty circle.
"""
import collections, functools, random, sys

sys.dont_write_bytecode = True
from gen import G, RIMS, TRIANGLE, accepted, around, chart_at, damaged, delaunay, queries
from second import circle, locate, parse, refusal

A = TRIANGLE.encode()
MORE = 33 + 6 * 33 + 2 * 9  # bytes: a vertex, six half-edges, two faces


# ---------------------------------------------------------------- the stream


def places(rnd, c, further):
    """Vertices, lattice points of hull edges and of inner edges, points of faces and outside; and a step beside any of them."""
    q = queries(rnd, c, 30) + rnd.sample(further, min(len(further), 20))
    for h in rnd.sample(range(len(c.h)), min(len(c.h), 8)):  # the middle of an edge, or a step beside it
        q.append(tuple((a + b) // 2 for a, b in zip(c.frm(h), c.to(h))))
    return q + [rnd.choice(around(p)) for p in rnd.sample(q, len(q) // 3)]


def value(rnd):
    return rnd.choice([0, 1, 500000, 999999, 1000000] * 3 + [rnd.randint(0, 1000000)] * 10 + [-1, 1000001, 2 ** 63 - 1, -2 ** 63])


def make(seed, charts, maxv):
    rnd = random.Random(seed)
    out = sys.stdout.buffer
    line = lambda word, q, v, room: out.write(b'%s %d %d %d %d\n' % (word, q[0], q[1], v, room))

    def chart(t): out.write(b'chart %d\n' % len(t) + t)

    def tests(t, c, further, most):
        chart(t)
        size = len(t) + MORE
        for q in rnd.sample(further, min(most, len(further))):
            word = rnd.choice([b'insert', b'insert', b'grow'])
            line(word, q, value(rnd), rnd.choice([size, size, size - 1, size + 1, 0, 40000]) if word == b'insert' else 40000)

    for i in range(charts):
        family = i % (len(RIMS) + 3)
        c, further = None, []
        while c is None:
            if family < len(RIMS): c, further = RIMS[family][1](rnd)
            else: c = accepted(rnd, maxv)[1]
        if len(c.v) > maxv: continue
        if family == len(RIMS) + 2:  # a chart that is refused, or nearly
            chart(damaged(rnd, c)[1])
            line(b'insert', rnd.choice([c.at(0), (G + 1, 0), (1, 1)]), value(rnd), rnd.choice([0, 40000]))
            continue
        tests(c.text(), c, places(rnd, c, further), 16)

    # triangle A: every place inside it, then none is left
    chart(A)
    inside = [(x, y) for x in range(1, 10) for y in range(1, 10 - x)]
    for q in rnd.sample(inside, len(inside)): line(b'grow', q, value(rnd) % 1000001, 40000)
    for q in [(x, y) for x in range(-1, 12) for y in range(-1, 12)]: line(b'insert', q, 7, 40000)

    # a triangle and a square, large enough, grown to 128 vertices; there 13 comes before 25, and 25 before 26 and 18
    big = parse(A)[1]
    for v in big.v: v[0], v[1] = 1000 * v[0], 1000 * v[1]
    lattice = [(x, y) for x in range(0, 12) for y in range(0, 11)]
    for c, q in ((big, lambda: (rnd.randint(-50, 10000), rnd.randint(-50, 10000))),
                 (chart_at(rnd, [(0, 0), (1100, 0), (0, 1000), (1100, 1000)]), lambda: tuple(100 * n + rnd.choice([0, 0, 0, 1, -1]) for n in rnd.choice(lattice)))):
        chart(c.text())
        for _ in range(260): line(b'grow', q(), rnd.randint(0, 1000000), 40000)
        for p, v, room in (((1, 1), 5, 0), ((1, 1), 5, 40000), ((0, 0), 5, 40000), ((-5, 0), 5, 40000), ((1, 1), -1, 0), ((G + 1, 1), 5, 0)):
            line(b'insert', p, v, room)


# ---------------------------------------------------------------- the judge


def records(stream, answers):
    """(chart, x, y, value, room, what was answered) of each test."""
    chart, i, j = b'', 0, 0
    while i < len(stream):
        end = stream.index(b'\n', i)
        words, i = stream[i:end].split(), end + 1
        if words[0] == b'chart':
            chart, i = stream[i:i + int(words[1])], i + int(words[1])
            continue
        end = answers.index(b'\n', j)
        said, j = answers[j:end].split(), end + 1
        text = None
        if said[0] == b'text': text, j = answers[j:j + int(said[1])], j + int(said[1])
        yield (chart, *map(int, words[1:]), said, text)
        if words[0] == b'grow' and text is not None: chart = text
    assert j == len(answers), 'answers to nothing'


@functools.lru_cache(4)
def read(t):
    """The refusal of a chart, and its tables where there is none."""
    n = refusal(t)
    return n, None if n else parse(t)[1]


def expected(t, x, y, v, room):
    """02's refusal, or 0."""
    n, c = read(t)
    if n: return n
    if max(abs(x), abs(y)) > G or not 0 <= v <= 1000000: return 13
    if len(c.v) == 128: return 25
    kind, h = locate(c, (x, y))
    if kind in ('vertex', 'outside') or kind == 'edge' and 0 in (c.face(h), c.face(h ^ 1)): return 26
    return 18 if room < len(t) + MORE else 0


def triangles(c):
    t = [[c.org(h) for h in c.edges_of(f)] for f in range(1, len(c.f))]
    return {tuple(k[i:] + k[:i]) for k in t for i in [k.index(min(k))]}


def held(t, x, y, v, new):
    """What 02 says of the outcome; whether its triangles were compared."""
    c, (n, d) = read(t)[1], read(new)
    assert n == 0, 'the outcome is refused with %d' % n
    assert (len(d.v), len(d.h), len(d.f)) == (len(c.v) + 1, len(c.h) + 6, len(c.f) + 2), 'counts'
    assert [r[:3] for r in d.v] == [r[:3] for r in c.v] + [[x, y, v]], 'vertices'
    at = [d.at(i) for i in range(len(d.v))]
    for f in range(1, len(d.f)):
        k = d.corners(f)
        if any(p not in k and circle(*k, p) == 0 for p in at): return False
    opp = delaunay(at, random.Random(0))
    made = {min((a, b, k), (b, k, a), (k, a, b)) for (a, b), k in opp.items()}
    assert triangles(d) == made, 'triangles'
    return True


def judge(stream, answers):
    seen = collections.Counter()
    for n, (t, x, y, v, room, said, text) in enumerate(records(open(stream, 'rb').read(), open(answers, 'rb').read())):
        want = expected(t, x, y, v, room)
        try:
            assert said[2:] == [], said
            assert (0 if text is not None else int(said[1])) == want, 'expected %d' % want
            if want: seen[want] += 1
            else: seen['compared' if held(t, x, y, v, text) else 'on a circle'] += 1
        except AssertionError as e:
            sys.exit('-- test %d, %d %d %d in %d bytes: %s (%s)\n%s' % (n, x, y, v, room, e, b' '.join(said).decode(), t.decode(errors='replace')))
        if want == 0: seen['edge' if locate(read(t)[1], (x, y))[0] == 'edge' else 'face'] += 1
    print('-- %d new bench tests as 02 has them: %d put in (%d into a face, %d into an edge), %d with the triangles compared; refused %s' % (
        n + 1, seen['compared'] + seen['on a circle'], seen['face'], seen['edge'], seen['compared'],
        ', '.join('%d: %d' % (k, seen[k]) for k in sorted(k for k in seen if isinstance(k, int)))))


if __name__ == '__main__':
    if sys.argv[1:2] == ['make']: make(int(sys.argv[2]), int(sys.argv[3]), int((sys.argv[4:] or [128])[0]))
    elif sys.argv[1:2] == ['judge']: judge(*sys.argv[2:])
    else: sys.exit(__doc__)
