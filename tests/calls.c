/* Every exported function on triangle A (its path is the first argument): with a lent slice too short by one, which must get 2 and leave
 * every slice as it was; refused otherwise, with the same; accepted, with 01's answers ("Loads at the rim") and the oracle's floats, and
 * every element past the named ones as it was. Each slice ends at a page that cannot be touched. All of it once for each guard: as it was
 * means the same 64 bits, also where a float's are those of a not-a-number, which a copy through a float register could change. Charts are
 * written back beside the files that they were read from: triangle A's and the square's (its path is the second argument). On both, loads in
 * and around the chart lie where its corners say, and new tests are put in. */
#define _DEFAULT_SOURCE
#include <inttypes.h>
#include <stdio.h>
#include <string.h>
#include <sys/mman.h>

#include "estivolh.h"

#define PAGE 4096
#define PAGES 2
/* what a slice holds before a call: a number, then not-a-numbers, quiet and signalling, of both signs, with payloads */
static const uint64_t guards[] = {0xa5a5a5a5a5a5a5a5u, 0x7ff8deadbeef0001u, 0x7ff4deadbeef0001u, 0xfff0000000000001u, UINT64_MAX};
static uint64_t guard;

static int failures, checks;
static void expect(int holds, int line) {
    checks++;
    if (!holds) {
        failures++;
        printf("tests/calls.c:%d: FAILED, guard %016" PRIx64 "\n", line, guard);
    }
}
#define EXPECT(x) expect((x), __LINE__)

/* So many bytes that end at the wall, each with the guard's of its place: of n elements of 8 bytes each has the guard's bits. They are never
 * given back. */
static uint8_t *lent_bytes(size_t bytes) {
    size_t pages = bytes / PAGE + 1;
    uint8_t *at = mmap(NULL, (pages + 1) * PAGE, PROT_READ | PROT_WRITE, MAP_PRIVATE | MAP_ANONYMOUS, -1, 0);
    if (at == MAP_FAILED || mprotect(at + pages * PAGE, PAGE, PROT_NONE) != 0) {
        perror("lent");
        return NULL;
    }
    uint8_t *first = at + pages * PAGE - bytes;
    for (size_t i = 0; i < bytes; i++) {
        first[i] = ((const uint8_t *)&guard)[i % 8];
    }
    return first;
}
static void *lent(size_t n) { return lent_bytes(8 * n); }

/* Whether the elements from one on still have the guard's bits. */
static int kept(const void *p, size_t from, size_t n) {
    for (size_t i = from; i < n; i++) {
        uint64_t bits;
        memcpy(&bits, (const uint8_t *)p + 8 * i, 8);
        if (bits != guard) {
            return 0;
        }
    }
    return 1;
}

/* Whether the bytes from one on still have the guard's; no guard has a byte that chart text has. */
static int kept_bytes(const uint8_t *p, size_t from, size_t n) {
    for (size_t i = from; i < n; i++) {
        if (p[i] != ((const uint8_t *)&guard)[i % 8]) {
            return 0;
        }
    }
    return 1;
}

/* A float's 64 bits are these. */
static int has_bits(double f, uint64_t bits) { return memcmp(&f, &bits, 8) == 0; }

static uint8_t *chart, *square_chart;
static size_t size, square_size;

static void check(void) {
    EXPECT(estivolh_check(chart, size) == 0);
    EXPECT(estivolh_check(chart, size - 1) == 3);
    EXPECT(estivolh_check(chart, 24) == 3);
    EXPECT(estivolh_check(chart, 0) == 3);
}

static void located(int64_t x, int64_t y, uint64_t kind, uint64_t number) {
    uint64_t *p = lent(2), *q = lent(5);
    EXPECT(estivolh_locate(chart, size, x, y, p, 1) == 2 && kept(p, 0, 2));
    EXPECT(estivolh_locate(chart, size - 1, x, y, p, 1) == 2 && kept(p, 0, 2));
    EXPECT(estivolh_locate(chart, size - 1, x, y, p, 2) == 3 && kept(p, 0, 2));
    EXPECT(estivolh_locate(chart, size, x, y, p, 2) == 0 && p[0] == kind && p[1] == number);
    EXPECT(estivolh_locate(chart, size, x, y, q, 5) == 0 && q[0] == kind && q[1] == number && kept(q, 2, 5));
}

static void locate(void) {
    located(10, 0, ESTIVOLH_ON_VERTEX, 1);
    located(5, 0, ESTIVOLH_ON_EDGE, 0);
    located(5, 5, ESTIVOLH_ON_EDGE, 2);
    located(2, 3, ESTIVOLH_ON_FACE, 1);
    located(5, -1, ESTIVOLH_OUTSIDE_OF_HULL, 1);
    located(6, 5, ESTIVOLH_OUTSIDE_OF_HULL, 3);
    uint64_t *p = lent(2);
    EXPECT(estivolh_locate(chart, size, 10001, 0, p, 2) == 13 && kept(p, 0, 2));
    EXPECT(estivolh_locate(chart, size, INT64_MIN, INT64_MAX, p, 2) == 13 && kept(p, 0, 2));
}

static void barycentric_weights(void) {
    uint64_t *v = lent(3), *c = lent(1);
    double *w = lent(3);
    EXPECT(estivolh_barycentric_weights(chart, size, 2, 3, v, 2, w, 3, c, 1) == 2 && kept(v, 0, 3) && kept(w, 0, 3) && kept(c, 0, 1));
    EXPECT(estivolh_barycentric_weights(chart, size, 2, 3, v, 3, w, 2, c, 1) == 2 && kept(v, 0, 3) && kept(w, 0, 3) && kept(c, 0, 1));
    EXPECT(estivolh_barycentric_weights(chart, size, 2, 3, v, 3, w, 3, c, 0) == 2 && kept(v, 0, 3) && kept(w, 0, 3) && kept(c, 0, 1));
    EXPECT(estivolh_barycentric_weights(chart, 0, 2, 3, v, 3, w, 3, c, 0) == 2 && kept(v, 0, 3) && kept(w, 0, 3) && kept(c, 0, 1));
    EXPECT(estivolh_barycentric_weights(chart, size, 5, -1, v, 3, w, 3, c, 1) == 14 && kept(v, 0, 3) && kept(w, 0, 3) && kept(c, 0, 1));
    EXPECT(estivolh_barycentric_weights(chart, size, 10, 0, v, 3, w, 3, c, 1) == 0 && c[0] == 1);
    EXPECT(v[0] == 1 && kept(v, 1, 3) && has_bits(w[0], 4607182418800017408u) && kept(w, 1, 3));
    EXPECT(estivolh_barycentric_weights(chart, size, 5, 5, v, 3, w, 3, c, 1) == 0 && c[0] == 2);
    EXPECT(v[0] == 1 && v[1] == 2 && kept(v, 2, 3) && has_bits(w[0], 4602678819172646912u) && has_bits(w[1], 4602678819172646912u) && kept(w, 2, 3));
    uint64_t *u = lent(5), *d = lent(3);
    double *x = lent(5);
    EXPECT(estivolh_barycentric_weights(chart, size, 2, 3, u, 5, x, 5, d, 3) == 0 && d[0] == 3 && kept(d, 1, 3));
    EXPECT(u[0] == 2 && u[1] == 0 && u[2] == 1 && kept(u, 3, 5));
    EXPECT(has_bits(x[0], 4599075939470750515u) && has_bits(x[1], 4602678819172646912u) && has_bits(x[2], 4596373779694328216u) && kept(x, 3, 5));
}

static void natural_neighbor_edges(void) {
    uint64_t *e = lent(6), *c = lent(2), *f = lent(9), *d = lent(4);
    EXPECT(estivolh_natural_neighbor_edges(chart, size, 2, 3, e, 6, c, 1) == 2 && kept(e, 0, 6) && kept(c, 0, 2));
    EXPECT(estivolh_natural_neighbor_edges(chart, 0, 2, 3, e, 6, c, 1) == 2 && kept(e, 0, 6) && kept(c, 0, 2));
    EXPECT(estivolh_natural_neighbor_edges(chart, size, 2, 3, e, 5, c, 2) == 2 && kept(e, 0, 6) && kept(c, 0, 2));
    EXPECT(estivolh_natural_neighbor_edges(chart, size, 5, -1, e, 6, c, 2) == 14 && kept(e, 0, 6) && kept(c, 0, 2));
    EXPECT(estivolh_natural_neighbor_edges(chart, size, 2, 3, e, 6, c, 2) == 0 && c[0] == 3 && c[1] == 1);
    EXPECT(e[0] == 4 && e[1] == 0 && e[2] == 2 && kept(e, 3, 6));
    EXPECT(estivolh_natural_neighbor_edges(chart, size, 5, 5, f, 9, d, 4) == 0 && d[0] == 2 && d[1] == 0 && kept(d, 2, 4));
    EXPECT(f[0] == 2 && f[1] == 3 && kept(f, 2, 9));
}

static void natural_neighbor_weights(void) {
    uint64_t *v = lent(6), *c = lent(2);
    double *w = lent(6);
    EXPECT(estivolh_natural_neighbor_weights(chart, size, 2, 3, v, 6, w, 6, c, 1) == 2 && kept(v, 0, 6) && kept(w, 0, 6) && kept(c, 0, 2));
    EXPECT(estivolh_natural_neighbor_weights(chart, 0, 2, 3, v, 6, w, 6, c, 1) == 2 && kept(v, 0, 6) && kept(w, 0, 6) && kept(c, 0, 2));
    EXPECT(estivolh_natural_neighbor_weights(chart, size, 2, 3, v, 5, w, 6, c, 2) == 2 && kept(v, 0, 6) && kept(w, 0, 6) && kept(c, 0, 2));
    EXPECT(estivolh_natural_neighbor_weights(chart, size, 2, 3, v, 6, w, 5, c, 2) == 2 && kept(v, 0, 6) && kept(w, 0, 6) && kept(c, 0, 2));
    EXPECT(estivolh_natural_neighbor_weights(chart, size, 0, 10001, v, 6, w, 6, c, 2) == 13 && kept(v, 0, 6) && kept(w, 0, 6) && kept(c, 0, 2));
    EXPECT(estivolh_natural_neighbor_weights(chart, size, 2, 3, v, 6, w, 6, c, 2) == 0 && c[0] == 3 && c[1] == 1);
    EXPECT(v[0] == 2 && v[1] == 0 && v[2] == 1 && kept(v, 3, 6));
    EXPECT(has_bits(w[0], 4599075939470750514u) && has_bits(w[1], 4602678819172646911u) && has_bits(w[2], 4596373779694328218u) && kept(w, 3, 6));
    uint64_t *u = lent(8), *d = lent(3);
    double *x = lent(8);
    EXPECT(estivolh_natural_neighbor_weights(chart, size, 10, 0, u, 8, x, 8, d, 3) == 0 && d[0] == 1 && d[1] == 0 && kept(d, 2, 3));
    EXPECT(u[0] == 1 && kept(u, 1, 8) && has_bits(x[0], 4607182418800017408u) && kept(x, 1, 8));
}

static void estimate_gradient(void) {
    double *g = lent(2), *h = lent(4);
    EXPECT(estivolh_estimate_gradient(chart, size, 0, g, 1) == 2 && kept(g, 0, 2));
    EXPECT(estivolh_estimate_gradient(chart, 0, 3, g, 1) == 2 && kept(g, 0, 2));
    EXPECT(estivolh_estimate_gradient(chart, size, 3, g, 2) == 12 && kept(g, 0, 2));
    EXPECT(estivolh_estimate_gradient(chart, size, UINT64_MAX, g, 2) == 12 && kept(g, 0, 2));
    EXPECT(estivolh_estimate_gradient(chart, size, 0, g, 2) == 0 && g[0] == 10.0 && g[1] == 20.0);
    EXPECT(estivolh_estimate_gradient(chart, size, 2, h, 4) == 0 && h[0] == 10.0 && h[1] == 20.0 && kept(h, 2, 4));
}

static void interpolate(void) {
    double *v = lent(1), *w = lent(3);
    EXPECT(estivolh_interpolate(chart, size, 1, 2, 3, v, 0) == 2 && kept(v, 0, 1));
    EXPECT(estivolh_interpolate(chart, 0, 4, 2, 3, v, 0) == 2 && kept(v, 0, 1));
    EXPECT(estivolh_interpolate(chart, size, 4, 2, 3, v, 1) == 12 && kept(v, 0, 1));
    EXPECT(estivolh_interpolate(chart, size, 1, 5, -1, v, 1) == 14 && kept(v, 0, 1));
    EXPECT(estivolh_interpolate(chart, size, ESTIVOLH_BARYCENTRIC, 2, 3, v, 1) == 0 && has_bits(v[0], 4640537203540230144u));
    EXPECT(estivolh_interpolate(chart, size, ESTIVOLH_NATURAL, 2, 3, v, 1) == 0 && has_bits(v[0], 4640537203540230143u));
    EXPECT(estivolh_interpolate(chart, size, ESTIVOLH_GRADIENTS, 2, 3, w, 3) == 0 && has_bits(w[0], 4640537203540230144u) && kept(w, 1, 3));
}

/* What lies where, by the corners of triangle A, (0,0), (10,0), (0,10), and of the square with sides of 10, whose diagonal is x = y. */
static uint64_t in_triangle(int64_t x, int64_t y) {
    if (x < 0 || y < 0 || x + y > 10) {
        return ESTIVOLH_OUTSIDE_OF_HULL;
    }
    int sides = (x == 0) + (y == 0) + (x + y == 10);
    return sides == 2 ? ESTIVOLH_ON_VERTEX : sides == 1 ? ESTIVOLH_ON_EDGE : ESTIVOLH_ON_FACE;
}
static uint64_t in_square(int64_t x, int64_t y) {
    if (x < 0 || y < 0 || x > 10 || y > 10) {
        return ESTIVOLH_OUTSIDE_OF_HULL;
    }
    int sides = (x == 0) + (y == 0) + (x == 10) + (y == 10);
    return sides == 2 ? ESTIVOLH_ON_VERTEX : sides == 1 || x == y ? ESTIVOLH_ON_EDGE : ESTIVOLH_ON_FACE;
}

/* Every load has a place: on the chart no call refuses it, by any method, and outside all but estivolh_locate give 14 (02, CR 2 and CR 11). In a
 * face, or on the square's diagonal, the faces opened are those whose circle holds the load, and all do here; the edges are the chart's sides,
 * half-edges 0, 2, 4 and, of the square, 6, each once, in a ring. */
static void placed(const uint8_t *text, size_t bytes, int64_t x, int64_t y, uint64_t kind, uint64_t sides, int inner) {
    uint64_t refusal = kind == ESTIVOLH_OUTSIDE_OF_HULL ? ESTIVOLH_REFUSED_OUTSIDE : ESTIVOLH_ACCEPTED;
    uint64_t p[2], v[12], c[2], e[12], m[2];
    double w[12], value[1];
    EXPECT(estivolh_locate(text, bytes, x, y, p, 2) == 0 && p[0] == kind);
    EXPECT(estivolh_barycentric_weights(text, bytes, x, y, v, 3, w, 3, c, 1) == refusal && (refusal != 0 || c[0] == kind));
    for (int64_t method = ESTIVOLH_BARYCENTRIC; method <= ESTIVOLH_GRADIENTS; method++) {
        EXPECT(estivolh_interpolate(text, bytes, method, x, y, value, 1) == refusal);
    }
    EXPECT(estivolh_natural_neighbor_edges(text, bytes, x, y, e, 12, c, 2) == refusal);
    EXPECT(estivolh_natural_neighbor_weights(text, bytes, x, y, v, 12, w, 12, m, 2) == refusal);
    if (inner) {
        EXPECT(c[0] == sides && c[1] == sides - 2 && m[0] == c[0] && m[1] == c[1]);
        for (uint64_t i = 0; i < sides; i++) {
            EXPECT(e[i] % 2 == 0 && e[i] < 2 * sides && e[(i + 1) % sides] == (e[i] + 2) % (2 * sides) && v[i] == e[i] / 2);
        }
    }
}
static void places(void) {
    for (int64_t x = -2; x <= 12; x++) {
        for (int64_t y = -2; y <= 12; y++) {
            uint64_t t = in_triangle(x, y), s = in_square(x, y);
            placed(chart, size, x, y, t, 3, t == ESTIVOLH_ON_FACE);
            placed(square_chart, square_size, x, y, s, 4, s == ESTIVOLH_ON_FACE || (s == ESTIVOLH_ON_EDGE && x == y));
        }
    }
}

static void charge(void) {
    uint64_t *n = lent(1), *m = lent(3);
    EXPECT(estivolh_charge(149.5, n, 0) == 2 && kept(n, 0, 1));
    EXPECT(estivolh_charge(1000000.5, n, 0) == 2 && kept(n, 0, 1));
    EXPECT(estivolh_charge(1000000.5, n, 1) == 16 && kept(n, 0, 1));
    EXPECT(estivolh_charge(149.5, n, 1) == 0 && n[0] == 150);
    EXPECT(estivolh_charge(-0.5, m, 3) == 0 && m[0] == 0 && kept(m, 1, 3));
    uint64_t *none = lent(1);
    double value;
    memcpy(&value, &guard, 8);
    if (value != value) {
        EXPECT(estivolh_charge(value, none, 1) == 16 && kept(none, 0, 1));
    }
}

/* The 34 numbers of a book of two sections whose second has no bends. */
static int holds(const uint64_t *book, uint64_t wear, uint64_t bends, uint64_t retired) {
    uint64_t b[ESTIVOLH_BOOK_NUMBERS] = {0};
    b[ESTIVOLH_BOOK_SECTIONS] = 2;
    b[ESTIVOLH_BOOK_WEAR] = wear;
    b[ESTIVOLH_BOOK_BENDS] = bends;
    b[ESTIVOLH_BOOK_RETIRED] = retired;
    return memcmp(book, b, sizeof b) == 0;
}

static void fresh(void) {
    uint64_t *b = lent(34), *c = lent(40);
    EXPECT(estivolh_fresh(2, b, 33) == 2 && kept(b, 0, 34));
    EXPECT(estivolh_fresh(0, b, 33) == 2 && kept(b, 0, 34));
    EXPECT(estivolh_fresh(0, b, 34) == 1 && kept(b, 0, 34));
    EXPECT(estivolh_fresh(17, b, 34) == 1 && kept(b, 0, 34));
    EXPECT(estivolh_fresh(2, b, 34) == 0 && holds(b, 0, 0, 0));
    EXPECT(estivolh_fresh(2, c, 40) == 0 && holds(c, 0, 0, 0) && kept(c, 34, 40));
}

static void batch(void) {
    int64_t *log = lent(20);
    const int64_t entries[20] = {1, 0, 2, 3, 1, 1, 1, 5, -1, 1, 2, 0, 0, 0, 0, 1, 0, 5, 0, 2};
    memcpy(log, entries, sizeof entries);
    uint64_t *book = lent(34), *a = lent(4);
    EXPECT(estivolh_batch(book, 34, chart, size, log, 20, a, 4) == 1 && kept(book, 0, 34) && kept(a, 0, 4));
    EXPECT(estivolh_batch(book, 33, chart, size, log, 20, a, 4) == 2 && kept(book, 0, 34) && kept(a, 0, 4));
    EXPECT(estivolh_fresh(2, book, 34) == 0);
    EXPECT(estivolh_batch(book, 33, chart, size, log, 20, a, 4) == 2 && holds(book, 0, 0, 0) && kept(a, 0, 4));
    EXPECT(estivolh_batch(book, 34, chart, size, log, 19, a, 4) == 2 && holds(book, 0, 0, 0) && kept(a, 0, 4));
    EXPECT(estivolh_batch(book, 34, chart, size, log, 20, a, 3) == 2 && holds(book, 0, 0, 0) && kept(a, 0, 4));
    EXPECT(estivolh_batch(book, 34, chart, size - 1, log, 20, a, 4) == 3 && holds(book, 0, 0, 0) && kept(a, 0, 4));
    EXPECT(estivolh_batch(book, 34, chart, size, log, 20, a, 4) == 0 && holds(book, 150, 1, 180));
    EXPECT(a[0] == 180 && a[1] == 2000014 && a[2] == 0 && a[3] == 150);

    /* the same log, divided in every way into two batches; longer slices */
    for (size_t cut = 0; cut <= 4; cut++) {
        uint64_t *longer = lent(40), *first = lent(9), *second = lent(9);
        EXPECT(estivolh_fresh(2, longer, 40) == 0);
        EXPECT(estivolh_batch(longer, 40, chart, size, log, 5 * cut, first, 9) == 0 && kept(first, cut, 9));
        EXPECT(estivolh_batch(longer, 40, chart, size, log + 5 * cut, 20 - 5 * cut, second, 9) == 0 && kept(second, 4 - cut, 9));
        EXPECT(holds(longer, 150, 1, 180) && kept(longer, 34, 40));
        EXPECT(memcmp(first, a, 8 * cut) == 0 && memcmp(second, a + cut, 8 * (4 - cut)) == 0);
    }
}

/* A chart's tables, each in a slice that ends at the wall, with their lengths. */
struct tables {
    int64_t *vertices, *half_edges, *faces;
    size_t v, e, f;
};

static int64_t *lent_numbers(const int64_t *numbers, size_t n) {
    int64_t *first = lent(n);
    memcpy(first, numbers, 8 * n);
    return first;
}

static struct tables triangle(void) {
    static const int64_t v[] = {0, 0, 100, 0, 10, 0, 200, 2, 0, 10, 300, 4};
    static const int64_t e[] = {0, 2, 4, 1, 1, 5, 3, 0, 1, 4, 0, 1, 2, 1, 5, 0, 2, 0, 2, 1, 0, 3, 1, 0};
    static const int64_t f[] = {1, 0};
    struct tables t = {lent_numbers(v, 12), lent_numbers(e, 24), lent_numbers(f, 2), 12, 24, 2};
    return t;
}

static struct tables square(void) {
    static const int64_t v[] = {0, 0, 100, 0, 10, 0, 200, 2, 10, 10, 500, 4, 0, 10, 300, 6};
    static const int64_t e[] = {0, 2, 9, 1, 1, 7, 3, 0, 1, 9, 0, 1, 2, 1, 5, 0, 2, 6, 8, 2,
                                3, 3, 7, 0, 3, 8, 4, 2, 0, 5, 1, 0, 0, 4, 6, 2, 2, 0, 2, 1};
    static const int64_t f[] = {1, 0, 8};
    struct tables t = {lent_numbers(v, 16), lent_numbers(e, 40), lent_numbers(f, 3), 16, 40, 3};
    return t;
}

/* Tables of zeros. */
static struct tables zeros(size_t v, size_t e, size_t f) {
    struct tables t = {lent(v), lent(e), lent(f), v, e, f};
    memset(t.vertices, 0, 8 * v);
    memset(t.half_edges, 0, 8 * e);
    memset(t.faces, 0, 8 * f);
    return t;
}

/* Of tables the last so many numbers, so that the slices still end at the wall; of none, the wall itself. */
static struct tables last(struct tables t, size_t v, size_t e, size_t f) {
    struct tables u = {t.vertices + (t.v - v), t.half_edges + (t.e - e), t.faces + (t.f - f), v, e, f};
    return u;
}

static uint64_t write_back(struct tables t, uint8_t *text, size_t room, uint64_t *found, size_t found_length) {
    return estivolh_write_chart(t.vertices, t.v, t.half_edges, t.e, t.faces, t.f, text, room, found, found_length);
}

/* The chart text of tables as printf gives it, and its length. */
static size_t text_of(struct tables t, char *text, size_t most) {
    size_t n = (size_t)snprintf(text, most, "%8zu%8zu%8zu\n", t.v / 4, t.e / 4, t.f);
    for (size_t i = 0; i < t.v + t.e; i++) {
        int64_t number = i < t.v ? t.vertices[i] : t.half_edges[i - t.v];
        n += (size_t)snprintf(text + n, most - n, i % 4 == 3 ? "%8" PRId64 "\n" : "%8" PRId64, number);
    }
    for (size_t i = 0; i < t.f; i++) {
        n += (size_t)snprintf(text + n, most - n, "%8" PRId64 "\n", t.faces[i]);
    }
    return n;
}

/* Tables of an accepted chart: with exact room, with more, and with less, which gets 18. What was written is accepted. */
static void saved(struct tables t, int line) {
    static char expected[4096];
    size_t n = text_of(t, expected, sizeof expected);
    expect(n == 25 + 33 * (t.v / 4) + 33 * (t.e / 4) + 9 * t.f && n <= ESTIVOLH_CHART_BYTES_MAX, line);

    uint8_t *exact = lent_bytes(n), *one_more = lent_bytes(n + 1), *more = lent_bytes(n + 100), *less = lent_bytes(n - 1);
    uint64_t *found = lent(1), *longer = lent(3), *none = lent(1);
    expect(write_back(t, exact, n, found, 1) == 0 && found[0] == n && memcmp(exact, expected, n) == 0, line);
    expect(estivolh_check(exact, n) == 0, line);
    expect(write_back(t, one_more, n + 1, longer, 3) == 0 && longer[0] == n && kept(longer, 1, 3), line);
    expect(memcmp(one_more, expected, n) == 0 && kept_bytes(one_more, n, n + 1), line);
    expect(write_back(t, more, n + 100, found, 1) == 0 && found[0] == n, line);
    expect(memcmp(more, expected, n) == 0 && kept_bytes(more, n, n + 100), line);
    expect(write_back(t, exact, n, found, 1) == 0 && found[0] == n && memcmp(exact, expected, n) == 0, line); /* over itself */

    for (size_t short_by = 1; short_by <= n; short_by = short_by < 26 ? short_by + 1 : 2 * short_by) {
        expect(write_back(t, less + (short_by - 1), n - short_by, none, 1) == 18 && kept_bytes(less, 0, n - 1) && kept(none, 0, 1), line);
    }
    expect(write_back(t, less + (n - 1), 0, none, 1) == 18 && kept(none, 0, 1), line);
    expect(write_back(t, more, n + 100, none, 0) == 2 && kept_bytes(more, n, n + 100) && kept(none, 0, 1), line);
    expect(write_back(t, less, n - 1, none, 0) == 2 && kept_bytes(less, 0, n - 1) && kept(none, 0, 1), line);
    expect(text_of(t, expected, sizeof expected) == n && memcmp(more, expected, n) == 0, line); /* the tables as they were */
}
#define SAVED(t) saved((t), __LINE__)

/* Tables that are refused, with this number: whatever room there is, none included, so always before 18; and after 2 for found. */
static void refused(struct tables t, uint64_t number, int line) {
    static const size_t rooms[] = {0, 1, 24, 25, 339, 340, 513, 514, 600};
    uint8_t *text = lent_bytes(600);
    uint64_t *found = lent(1);
    for (size_t i = 0; i < sizeof rooms / sizeof *rooms; i++) {
        uint8_t *part = text + (600 - rooms[i]);
        expect(write_back(t, part, rooms[i], found, 1) == number && kept_bytes(text, 0, 600) && kept(found, 0, 1), line);
        expect(write_back(t, part, rooms[i], found, 0) == 2 && kept_bytes(text, 0, 600) && kept(found, 0, 1), line);
    }
}
#define REFUSED(t, number) refused((t), (number), __LINE__)

/* The square with one number changed: the table (v, e or f), the place in its slice, the number, and the refusal. */
static const struct {
    char table;
    size_t at;
    int64_t number;
    uint64_t refusal;
} changes[] = {
    {'v', 2, -1, 6}, {'v', 2, 1000001, 6}, {'v', 2, INT64_MIN, 6}, {'v', 2, INT64_MAX, 6}, {'v', 3, -1, 6}, {'v', 3, 10, 6},
    {'v', 3, INT64_MIN, 6}, {'v', 3, INT64_MAX, 6}, {'v', 4, 10001, 6}, {'v', 4, -10001, 6}, {'v', 4, INT64_MIN, 6}, {'v', 4, INT64_MAX, 6},
    {'v', 5, 10001, 6}, {'v', 5, -10001, 6}, {'v', 5, INT64_MIN, 6}, {'v', 5, INT64_MAX, 6}, {'v', 15, 10, 6}, {'e', 0, -1, 6},
    {'e', 0, 4, 6}, {'e', 1, -1, 6}, {'e', 1, 10, 6}, {'e', 1, 4294967298, 6}, {'e', 2, -1, 6}, {'e', 2, 10, 6}, {'e', 3, -1, 6},
    {'e', 3, 3, 6}, {'e', 36, INT64_MIN, 6}, {'e', 37, INT64_MAX, 6}, {'e', 38, INT64_MIN, 6}, {'e', 39, INT64_MAX, 6}, {'f', 0, -1, 6},
    {'f', 1, INT64_MIN, 6}, {'f', 1, 4294967296, 6}, {'f', 2, 10, 6}, {'f', 2, INT64_MAX, 6},
    {'v', 3, 1, 7}, {'e', 0, 2, 7}, {'e', 1, 9, 7}, {'e', 39, 2, 7}, {'f', 2, 9, 7},
    {'v', 4, 0, 8}, {'v', 5, 10, 8}, {'v', 8, 0, 8}, {'v', 9, 0, 8}, {'v', 12, 10, 8},
    {'v', 4, -10, 9}, {'v', 5, 11, 9}, {'v', 13, -10, 9},
    {'v', 8, 12, 11}, {'v', 9, 11, 11},
};

static void put(struct tables t, char table, size_t at, int64_t number) {
    (table == 'v' ? t.vertices : table == 'e' ? t.half_edges : t.faces)[at] = number;
}

static void write_chart(void) {
    /* the file's text, from its numbers */
    static char text[4096];
    EXPECT(text_of(triangle(), text, sizeof text) == size && memcmp(text, chart, size) == 0 && size == 340);
    EXPECT(text_of(square(), text, sizeof text) == square_size && memcmp(text, square_chart, square_size) == 0 && square_size == 514);
    SAVED(triangle());
    SAVED(square());
    uint8_t *room = lent_bytes(ESTIVOLH_CHART_BYTES_MAX);
    uint64_t *found = lent(1);
    EXPECT(write_back(triangle(), room, ESTIVOLH_CHART_BYTES_MAX, found, 1) == 0 && found[0] == size && memcmp(room, chart, size) == 0);
    EXPECT(kept_bytes(room, size, ESTIVOLH_CHART_BYTES_MAX));
    EXPECT(write_back(square(), room, ESTIVOLH_CHART_BYTES_MAX, found, 1) == 0 && found[0] == square_size);
    EXPECT(memcmp(room, square_chart, square_size) == 0 && kept_bytes(room, square_size, ESTIVOLH_CHART_BYTES_MAX));

    /* coordinates below 0, and both ends of every range */
    static const int64_t corners[] = {-10000, -10000, 0, 0, 10000, -9999, 1000000, 2, -1, 10000, 999999, 4};
    static const int64_t small[] = {-9, -10, 9, 0, 10, -1, 10, 2, 0, 9, 99, 4};
    static const int64_t left[] = {-100, -99, 1, 5, -10, -99, 12345, 1, -100, -9, 67890, 3};
    struct tables t = triangle();
    memcpy(t.vertices, corners, sizeof corners);
    SAVED(t);
    memcpy(t.vertices, small, sizeof small);
    SAVED(t);
    memcpy(t.vertices, left, sizeof left);
    SAVED(t);

    /* 2: no multiple of four, one to three numbers too few; the face slice has 3, which is none either */
    for (size_t off = 1; off <= 3; off++) {
        REFUSED(last(square(), 16 - off, 40, 3), 2);
        REFUSED(last(square(), 16, 40 - off, 3), 2);
        REFUSED(last(square(), 16 - off, 40 - off, 3), 2);
        REFUSED(last(square(), 4 + off, 40, 3), 2); /* before 4 */
        REFUSED(last(square(), off, 40, 3), 2);
        REFUSED(last(square(), 0, off, 0), 2);
        REFUSED(last(square(), 16, 40 - off, 1), 2);
        REFUSED(zeros(4 * 129 + off, 24, 2), 2);
        REFUSED(zeros(12, 4 * 757 + off, 2), 2);
    }
    /* 4: each count at both ends, odd half-edges, empty slices; tables of zeros that it lets pass get 7 */
    REFUSED(last(square(), 0, 0, 0), 4);
    REFUSED(last(square(), 0, 40, 3), 4);
    REFUSED(last(square(), 16, 0, 3), 4);
    REFUSED(last(square(), 16, 40, 0), 4);
    REFUSED(last(square(), 8, 40, 3), 4);
    REFUSED(last(square(), 16, 16, 3), 4);
    REFUSED(last(square(), 16, 36, 3), 4);
    REFUSED(last(square(), 16, 40, 1), 4);
    REFUSED(zeros(4 * 128, 4 * 756, 252), 7);
    REFUSED(zeros(4 * 3, 4 * 6, 2), 7);
    REFUSED(zeros(4 * 129, 4 * 756, 252), 4);
    REFUSED(zeros(4 * 128, 4 * 757, 252), 4);
    REFUSED(zeros(4 * 128, 4 * 758, 252), 4);
    REFUSED(zeros(4 * 128, 4 * 755, 252), 4);
    REFUSED(zeros(4 * 128, 4 * 756, 253), 4);
    REFUSED(zeros(4 * 128, 4 * 756, 256), 4);
    /* 6 to 11 */
    for (size_t i = 0; i < sizeof changes / sizeof *changes; i++) {
        t = square();
        put(t, changes[i].table, changes[i].at, changes[i].number);
        int before = failures;
        REFUSED(t, changes[i].refusal);
        if (failures != before) {
            printf("    it is change %zu, counted from 0\n", i);
        }
    }
    t = square();
    put(t, 'v', 0, 6);
    put(t, 'v', 1, 6);
    REFUSED(t, 10);

    /* which of two comes first: 2 before 4 and 6, 4 before 6, 6 before 7, 7 before 8, 8 before 9 */
    t = square();
    put(t, 'v', 12, 10001);
    REFUSED(last(t, 16, 39, 3), 2);
    REFUSED(last(t, 15, 40, 1), 2);
    REFUSED(last(t, 16, 36, 3), 4);
    REFUSED(last(t, 16, 40, 1), 4);
    REFUSED(last(t, 8, 40, 3), 4);
    put(t, 'e', 1, 9);
    REFUSED(t, 6);
    put(t, 'v', 12, 10);
    REFUSED(t, 7);
    put(t, 'e', 1, 2);
    REFUSED(t, 8);
}

#define MORE (33 + 6 * 33 + 2 * 9) /* bytes of a vertex, six half-edges and two faces */

/* The bytes of a vertex's line in a chart's text; the first 24 are its place and value. */
static const uint8_t *vertex_line(const uint8_t *text, size_t vertex) { return text + 25 + 33 * vertex; }

/* Whether a text is an accepted chart of one vertex more, the last, with the old ones' places and values. */
static int extends(const uint8_t *old, size_t vertices, const uint8_t *text, size_t n, int64_t x, int64_t y, int64_t value) {
    char last[32], count[16];
    snprintf(last, sizeof last, "%8" PRId64 "%8" PRId64 "%8" PRId64, x, y, value);
    snprintf(count, sizeof count, "%8zu", vertices + 1);
    for (size_t i = 0; i < vertices; i++) {
        if (memcmp(vertex_line(old, i), vertex_line(text, i), 24) != 0) {
            return 0;
        }
    }
    return memcmp(text, count, 8) == 0 && memcmp(vertex_line(text, vertices), last, 24) == 0 && estivolh_check(text, n) == 0;
}

/* A new test that is put in: with exact room, with more, and with less, which gets 18. */
static void inserted(const uint8_t *old, size_t length, size_t vertices, int64_t x, int64_t y, int64_t value, int line) {
    size_t n = length + MORE;
    uint8_t *exact = lent_bytes(n), *more = lent_bytes(n + 100), *less = lent_bytes(n - 1);
    uint64_t *found = lent(1), *longer = lent(3), *none = lent(1);
    expect(estivolh_insert(old, length, x, y, value, exact, n, found, 1) == 0 && found[0] == n, line);
    expect(extends(old, vertices, exact, n, x, y, value), line);
    expect(estivolh_insert(old, length, x, y, value, more, n + 100, longer, 3) == 0 && longer[0] == n && kept(longer, 1, 3), line);
    expect(memcmp(more, exact, n) == 0 && kept_bytes(more, n, n + 100), line);
    for (size_t short_by = 1; short_by <= n; short_by = short_by < 26 ? short_by + 1 : 2 * short_by) {
        expect(estivolh_insert(old, length, x, y, value, less + (short_by - 1), n - short_by, none, 1) == 18, line);
    }
    expect(estivolh_insert(old, length, x, y, value, less, n - 1, none, 0) == 2, line);
    expect(estivolh_insert(old, length, x, y, value, more + n, 100, none, 0) == 2, line);
    expect(kept_bytes(less, 0, n - 1) && kept_bytes(more, n, n + 100) && kept(none, 0, 1), line);
}
#define INSERTED(x, y, value) inserted(chart, size, 3, (x), (y), (value), __LINE__)

/* One that is refused, with this number: whatever room there is, none included, so always before 18; and after 2 for found. */
static void not_inserted(const uint8_t *old, size_t length, int64_t x, int64_t y, int64_t value, uint64_t number, int line) {
    static const size_t rooms[] = {0, 1, 588, 589, 763, 800};
    uint8_t *text = lent_bytes(800);
    uint64_t *found = lent(1);
    for (size_t i = 0; i < sizeof rooms / sizeof *rooms; i++) {
        uint8_t *part = text + (800 - rooms[i]);
        expect(estivolh_insert(old, length, x, y, value, part, rooms[i], found, 1) == number, line);
        expect(estivolh_insert(old, length, x, y, value, part, rooms[i], found, 0) == 2, line);
        expect(kept_bytes(text, 0, 800) && kept(found, 0, 1), line);
    }
}
#define NOT_INSERTED(x, y, value, number) not_inserted(chart, size, (x), (y), (value), (number), __LINE__)

static void insert(void) {
    INSERTED(2, 3, 150);
    INSERTED(1, 1, 0);
    INSERTED(8, 1, 1000000);
    inserted(square_chart, square_size, 4, 5, 5, 7, __LINE__); /* its inner edge */
    inserted(square_chart, square_size, 4, 6, 2, 7, __LINE__); /* which is flipped */
    for (int64_t t = 0; t <= 10; t++) { /* the sides, with their ends */
        NOT_INSERTED(t, 0, 150, 26);
        NOT_INSERTED(0, t, 150, 26);
        NOT_INSERTED(t, 10 - t, 150, 26);
        NOT_INSERTED(t, 11 - t, 150, 26);
        NOT_INSERTED(t, -1, 150, 26);
    }
    NOT_INSERTED(10000, -10000, 150, 26);
    NOT_INSERTED(10001, 3, 150, 13);
    NOT_INSERTED(2, -10001, 150, 13);
    NOT_INSERTED(INT64_MIN, INT64_MAX, 150, 13);
    NOT_INSERTED(2, 3, -1, 13);
    NOT_INSERTED(2, 3, 1000001, 13);
    NOT_INSERTED(2, 3, INT64_MIN, 13);
    NOT_INSERTED(2, 3, INT64_MAX, 13);
    NOT_INSERTED(0, 0, -1, 13); /* before 26 */
    not_inserted(chart, size - 1, 10001, 3, -1, 3, __LINE__);
    not_inserted(chart, 24, 2, 3, 150, 3, __LINE__);
    not_inserted(chart, 0, 2, 3, 150, 3, __LINE__);
}

static void every_call(void) {
    check();
    locate();
    barycentric_weights();
    natural_neighbor_edges();
    natural_neighbor_weights();
    estimate_gradient();
    interpolate();
    charge();
    fresh();
    batch();
    write_chart();
    insert();
}

/* A chart file's bytes, which end at the wall too, and how many there are. */
static uint8_t *read_chart(const char *path, size_t *bytes) {
    uint8_t *text = lent_bytes(PAGES * PAGE);
    FILE *file = path != NULL ? fopen(path, "rb") : NULL;
    if (text == NULL || file == NULL) {
        return NULL;
    }
    *bytes = fread(text, 1, PAGES * PAGE, file);
    fclose(file);
    return memmove(text + PAGES * PAGE - *bytes, text, *bytes);
}

int main(int argc, char **argv) {
    chart = read_chart(argc > 1 ? argv[1] : NULL, &size);
    square_chart = read_chart(argc > 2 ? argv[2] : NULL, &square_size);
    if (chart == NULL || square_chart == NULL) {
        printf("calls: no chart\n");
        return 1;
    }

    for (size_t i = 0; i < sizeof guards / sizeof *guards; i++) {
        guard = guards[i];
        every_call();
    }
    places();
    printf("-- %d checks of the exported calls, also around not-a-numbers, %d failed\n", checks, failures);
    return failures != 0;
}
