/* The public calls of Estivolh for C: wear charts and the rope book. Version 1.5.0.
 *
 * Link libestivolh_c.a (tools/staticlib makes it, for x86-64 Linux); of the C library it needs memcpy and memset.
 *
 * NEW IN 1.5.0: estivolh_insert, and refusals 25 and 26, which no other call gives. All else is as in 1.4.0; callers change nothing.
 * NEW IN 1.4.0, and it broke callers' source where they named it: ESTIVOLH_REFUSED_BROKEN_TURN is gone, and no call returns 15. No turn about
 * a natural neighbour is broken, so that estivolh_natural_neighbor_weights, and values and bends by methods 2 and 3, are refused for the same
 * reasons as by method 1. A caller takes out what it did on 15: it never came to it. All else is as in 1.3.0: what is compiled already links
 * and runs as before. CHANGELOG.md.
 * NEW IN 1.3.0, and it broke callers' source where they named it: ESTIVOLH_REFUSED_NO_PLACE became ESTIVOLH_REFUSED_BROKEN_TURN. Its number
 * was 15 as before, and a broken turn was all that it meant: every load on an accepted chart has a place, so that estivolh_locate,
 * estivolh_barycentric_weights, estivolh_natural_neighbor_edges and values by method 1 never return it. All else is as in 1.2.1: what is
 * compiled already links and runs as before. CHANGELOG.md.
 * NEW IN 1.2.1: charts are checked faster; callers change nothing.
 * NEW IN 1.2.0: estivolh_write_chart, and refusal 18, which no other call gave. All else is as in 1.1.0; callers change nothing.
 * NEW IN 1.1.0, and it breaks callers' source: the names of the refusals begin with ESTIVOLH_REFUSED_ (ESTIVOLH_OUTSIDE is now
 * ESTIVOLH_REFUSED_OUTSIDE), so that none is taken for a position or for an index of the book; and compilers warn where a call's number
 * is dropped. Numbers, functions and slices are those of 1.0.0: what is compiled already links and runs as before. CHANGELOG.md.
 *
 * What a chart, a log, a book and an answer are: docs/FORMATS.md. "01" is the paper that defined them, "02" the one that added to it; that
 * page says what they say. A chart is the bytes of a chart file, which each call checks; estivolh_write_chart alone is lent a chart's
 * tables, and checks those. Vertices, half-edges and faces are numbered from 0 in the order of the file; face 0 is the outer one. x and y
 * are whole numbers from -10000 to 10000, in the chart's units. Floats are IEEE 754 doubles.
 *
 * PROVED, for every content of every slice: each call returns 0 where it is accepted, or else the number of the refusal that meets it first
 * (enum estivolh_refusal), and then it has written nothing. A lent slice is a pointer and the number of its elements. Where this header
 * states a length for a lent slice, a shorter one gets ESTIVOLH_REFUSED_SLICES before all else; a longer one is taken. An accepted call
 * writes the elements that are named here for it, and every other element is as it was. Every call ends.
 *     Of an element that holds a not-a-number and is not written, the proof says that it still holds one; that its bits are kept is tested
 * (tests/calls.c).
 *
 * THE CALLER'S PROMISE, outside the proof, as no call could test it:
 *   - Each pointer is valid for as many elements as the length beside it says (for writing where it is not const), is aligned for its type,
 *     and is not NULL, not even where the length is 0. data() of an empty C++ vector may be NULL: lend the address of any element of
 *     the type, with length 0.
 *   - No slice that a call writes overlaps another slice of the same call. Slices that are only read may overlap.
 *   - Nothing else writes a lent slice while the call runs, one that is only read included: no other thread, interrupt, process or device.
 *   - The thread's floating-point environment is the one that a C program starts with: rounding to nearest, exceptions masked, neither
 *     flush to zero nor denormals as zero (linking with -ffast-math may set both). No call looks at it. Under another rounding mode some
 *     bends get another charge, and the book is wrong: in a trial it was 63 of 83,988 values.
 *
 * THREADS: no call keeps anything from one time to the next, or uses memory other than its stack and what it is lent. Several threads may
 * call at the same time; they may share what is only read, such as the chart, and each has its own slices for what is written. The most
 * stack that a call was measured to take, on the largest chart, is 92 KB.
 *
 * POWER: a call that does not return, as power fails or the processor is reset, may leave the slices that it writes half written. Where
 * they outlast that, keep a copy of the book of before until estivolh_batch has returned; with the copy, the whole batch can be handed
 * over again. */
#ifndef ESTIVOLH_H
#define ESTIVOLH_H

#include <stddef.h>
#include <stdint.h>

#ifdef __cplusplus
extern "C" {
#endif

/* The version of this header and the library: 10000 * major + 100 * minor + patch. */
#define ESTIVOLH_VERSION 10500

/* Whoever drops a call's number takes a refused call for an accepted one, so a compiler that can is told to warn. */
#if defined(__GNUC__)
#define ESTIVOLH_MUST_CHECK __attribute__((warn_unused_result))
#else
#define ESTIVOLH_MUST_CHECK
#endif

/* What a call returns: 0, or why it is refused, in the order in which the refusals are tried (docs/DECISIONS.md, first row, says where 2 and
 * 3 stand; 18 comes last). An entry of a batch that is refused alone is answered ESTIVOLH_ENTRY_REFUSED plus the number: 12, 13, 14, 16 or 17. */
enum estivolh_refusal {
    ESTIVOLH_ACCEPTED = 0,
    ESTIVOLH_REFUSED_BOOK = 1,          /* sections not 1 to 16; wear and retired wear together, or a bend count, above 10^12; a section
                                           that the book does not have is not all zero */
    ESTIVOLH_REFUSED_SLICES = 2,        /* a lent slice is too short, the entries are no multiple of five numbers, or the vertices or
                                           half-edges that are to be written no multiple of four */
    ESTIVOLH_REFUSED_CHART_LENGTH = 3,  /* fewer than 25 bytes, or not the length that the counts on line 1 give */
    ESTIVOLH_REFUSED_CHART_COUNTS = 4,  /* vertices not 3 to 128, half-edges odd or not 6 to 756, faces not 2 to 252 */
    ESTIVOLH_REFUSED_CHART_FIELD = 5,   /* a malformed field or line end */
    ESTIVOLH_REFUSED_CHART_RANGE = 6,   /* a coordinate, a value, or a number of a vertex, half-edge or face out of range */
    ESTIVOLH_REFUSED_CHART_LINKS = 7,   /* the links between vertices, half-edges and faces are broken */
    ESTIVOLH_REFUSED_CHART_PLACES = 8,  /* two vertices at one place */
    ESTIVOLH_REFUSED_CHART_TURN = 9,    /* an inner face whose corners don't turn strictly left */
    ESTIVOLH_REFUSED_CHART_RIM = 10,    /* a vertex strictly left of an outer half-edge */
    ESTIVOLH_REFUSED_CHART_CIRCLE = 11, /* a vertex strictly inside an inner face's circle */
    ESTIVOLH_REFUSED_UNKNOWN = 12,      /* a kind, section, vertex number or method that is unknown; a splice whose x, y or method isn't 0 */
    ESTIVOLH_REFUSED_OFF_GRID = 13,     /* x or y not -10000 to 10000; of estivolh_insert also a value not 0 to 1000000 */
    ESTIVOLH_REFUSED_OUTSIDE = 14,      /* outside the chart's hull; of estivolh_locate it is an answer, ESTIVOLH_OUTSIDE_OF_HULL */
    ESTIVOLH_REFUSED_NO_CHARGE = 16,    /* the value is not a number, below -0.5, or at least 1000000.5 */
    ESTIVOLH_REFUSED_FULL = 17,         /* the charge would take wear and retired wear together above 10^12, or the section has 10^12 bends */
    ESTIVOLH_REFUSED_TEXT_ROOM = 18,    /* the lent buffer is shorter than the text; tried last of all */
    ESTIVOLH_REFUSED_CHART_FULL = 25,   /* a new vertex, and the chart has 128 */
    ESTIVOLH_REFUSED_NO_SITE = 26       /* a new vertex on a vertex, on a hull edge or outside; there is no 14 then */
};

/* Added to the number of the refusal in the answer of an entry that is refused alone. Answers of accepted entries are at most 1000000. */
#define ESTIVOLH_ENTRY_REFUSED 2000000

/* A book is 34 numbers: how many sections the rope has; the wear of each of 16 sections; the bend count of each; the retired wear.
 * Sections are numbered from 0. Those that the rope doesn't have are 0. ESTIVOLH_BOOK_.. are indices into the slice. */
#define ESTIVOLH_BOOK_NUMBERS 34
#define ESTIVOLH_SECTIONS_MAX 16
#define ESTIVOLH_BOOK_SECTIONS 0
#define ESTIVOLH_BOOK_WEAR 1   /* of section s: ESTIVOLH_BOOK_WEAR + s */
#define ESTIVOLH_BOOK_BENDS 17 /* of section s: ESTIVOLH_BOOK_BENDS + s */
#define ESTIVOLH_BOOK_RETIRED 33

/* An entry is 5 numbers: kind (1 bend, 2 splice), section, x, y, method. A splice's x, y and method are 0. */
#define ESTIVOLH_ENTRY_NUMBERS 5
enum estivolh_kind { ESTIVOLH_BEND = 1, ESTIVOLH_SPLICE = 2 };
enum estivolh_method { ESTIVOLH_BARYCENTRIC = 1, ESTIVOLH_NATURAL = 2, ESTIVOLH_GRADIENTS = 3 };

/* What a load lies on: the first number that estivolh_locate writes. */
enum estivolh_position { ESTIVOLH_ON_VERTEX = 1, ESTIVOLH_ON_EDGE = 2, ESTIVOLH_ON_FACE = 3, ESTIVOLH_OUTSIDE_OF_HULL = 4 };

/* The most half-edges that a chart has: slices of this length have room for every chart. */
#define ESTIVOLH_HALF_EDGES_MAX 756

/* The most bytes that a chart has, 25 + 33 * 128 + 33 * 756 + 9 * 252: a buffer of this length has room for the text of every chart. */
#define ESTIVOLH_CHART_BYTES_MAX 31465

/* Of every call below: 'writes' is what it writes where it returns 0. Where it returns another number it writes nothing. */

/* Whether the bytes are an accepted chart. Writes nothing. Refusals: 3 to 11. */
ESTIVOLH_MUST_CHECK
uint64_t estivolh_check(const uint8_t *chart, size_t chart_length);

/* Where the load at (x, y) lies. position has a stated length of 2.
 * Writes position[0], the kind (enum estivolh_position), and position[1], the number of the vertex, half-edge or face; of a load outside
 * the hull, that of the lowest outer half-edge which it lies strictly left of. Outside is an answer of this call, no refusal: every load on
 * the grid has a position, and lies on a vertex, on an edge, on a face or outside, on one of these alone.
 * Refusals: 2, 3 to 11, 13. */
ESTIVOLH_MUST_CHECK
uint64_t estivolh_locate(const uint8_t *chart, size_t chart_length, int64_t x, int64_t y, uint64_t *position, size_t position_length);

/* The barycentric weights of the load at (x, y). vertices and weights have a stated length of 3, found of 1.
 * Writes found[0], how many vertices there are, n: 1 on a vertex, 2 on an edge, 3 on a face; the vertices into the first n elements of
 * vertices, their weights into the first n of weights. Where n is below 3, vertices[n], weights[n] and those after them are as they were.
 * Refusals: 2, 3 to 11, 13, 14. */
ESTIVOLH_MUST_CHECK
uint64_t estivolh_barycentric_weights(const uint8_t *chart, size_t chart_length, int64_t x, int64_t y, uint64_t *vertices,
                                      size_t vertices_length, double *weights, size_t weights_length, uint64_t *found, size_t found_length);

/* The natural neighbour edges of the load at (x, y). found has a stated length of 2. edges must have as many elements as the chart has
 * half-edges: 2 is tested for it right after 4, as the chart's first line has to be read.
 * Writes found[0], how many edges there are, n, and found[1], how many faces the search opened; the edges, as numbers of half-edges in the
 * search's order, into the first n elements of edges. Refusals: 2, 3 to 11, 13, 14. */
ESTIVOLH_MUST_CHECK
uint64_t estivolh_natural_neighbor_edges(const uint8_t *chart, size_t chart_length, int64_t x, int64_t y, uint64_t *edges,
                                         size_t edges_length, uint64_t *found, size_t found_length);

/* The natural neighbour weights of the load at (x, y). found has a stated length of 2. vertices and weights must have as many elements as
 * the chart has half-edges: 2 is tested for them right after 4.
 * Writes found[0], how many vertices there are, n, and found[1], how many faces the search opened; the vertices into the first n elements
 * of vertices, their weights into the first n of weights. Refusals: 2, 3 to 11, 13, 14. */
ESTIVOLH_MUST_CHECK
uint64_t estivolh_natural_neighbor_weights(const uint8_t *chart, size_t chart_length, int64_t x, int64_t y, uint64_t *vertices,
                                           size_t vertices_length, double *weights, size_t weights_length, uint64_t *found,
                                           size_t found_length);

/* The slope of the wear at a vertex. gradient has a stated length of 2.
 * Writes gradient[0], its component along x, and gradient[1], that along y.
 * Refusals: 2, 3 to 11, 12 (vertex not below the chart's count). */
ESTIVOLH_MUST_CHECK
uint64_t estivolh_estimate_gradient(const uint8_t *chart, size_t chart_length, uint64_t vertex, double *gradient, size_t gradient_length);

/* The wear of a bend at (x, y), by a method (enum estivolh_method). value has a stated length of 1.
 * Writes value[0], the wear, not rounded; it may be one that estivolh_charge refuses with 16.
 * Refusals: 2, 3 to 11, 12 (method unknown), 13, 14. */
ESTIVOLH_MUST_CHECK
uint64_t estivolh_interpolate(const uint8_t *chart, size_t chart_length, int64_t method, int64_t x, int64_t y, double *value,
                              size_t value_length);

/* What a value costs: the whole n with n - 0.5 <= value < n + 0.5. charge has a stated length of 1.
 * Writes charge[0], n, from 0 to 1000000. Refusals: 2, 16; a value that is not a number gets 16. */
ESTIVOLH_MUST_CHECK
uint64_t estivolh_charge(double value, uint64_t *charge, size_t charge_length);

/* A fresh book of so many sections. book has a stated length of ESTIVOLH_BOOK_NUMBERS.
 * Writes book[0], sections, and 0 into book[1] to book[33]. Refusals: 2; 1 (sections not 1 to 16). */
ESTIVOLH_MUST_CHECK
uint64_t estivolh_fresh(uint64_t sections, uint64_t *book, size_t book_length);

/* A batch of entries on a book, under a chart. book has a stated length of ESTIVOLH_BOOK_NUMBERS and holds the book before the batch.
 * entries has 5 numbers for each of n entries, n from 0 on.
 * Writes the answers, in order, into the first n elements of answers, as it goes along: the charge of an accepted bend, 0 for an accepted
 * splice, ESTIVOLH_ENTRY_REFUSED plus the number for an entry that is refused alone, which changes nothing. Then the book after the batch
 * into book[0] to book[33]. An accepted batch may have refused entries: look at the answers.
 * Refusals of the whole batch: 2 (book too short); 1; 2 (entries no multiple of five numbers, fewer answers than entries); 3 to 11.
 * However a log is divided into batches, the answers are the same, and so is the book after the last one. */
ESTIVOLH_MUST_CHECK
uint64_t estivolh_batch(uint64_t *book, size_t book_length, const uint8_t *chart, size_t chart_length, const int64_t *entries,
                        size_t entries_length, uint64_t *answers, size_t answers_length);

/* A chart's tables, written back as chart text. vertices has 4 numbers for each vertex (x, y, value, out), half_edges 4 for each half-edge
 * (origin, next, prev, face), faces one for each face (adjacent), in the order of a chart file; any numbers may be lent. The lengths say
 * how many vertices v, half-edges e and faces f there are. found has a stated length of 1. The text has 25 + 33 * v + 33 * e + 9 * f bytes:
 * text must have as many, which is tested last of all, and gets 18.
 * Writes the text into the first n bytes of text, and found[0], its length n. No NUL is put after it, and the bytes past it are as they
 * were. The text is an accepted chart whose numbers are the lent ones; where these are the numbers of an accepted chart file, the text is
 * that file, byte for byte.
 * Refusals: 2 (found too short); 2 (vertices or half_edges no multiple of four numbers; of faces it is not asked); 4; 6 to 11; 18. */
ESTIVOLH_MUST_CHECK
uint64_t estivolh_write_chart(const int64_t *vertices, size_t vertices_length, const int64_t *half_edges, size_t half_edges_length,
                              const int64_t *faces, size_t faces_length, uint8_t *text, size_t text_length, uint64_t *found,
                              size_t found_length);

/* A new bench test at (x, y), with its value, put into a chart: the face or inner edge that holds it is divided about it, and edges are
 * flipped until no vertex is strictly inside a face's circle. found has a stated length of 1. The new chart's text has 249 bytes more
 * than the old one's, for one vertex, six half-edges and two faces: text must have as many, which is tested last of all, and gets 18.
 * Writes the new chart's text into the first n bytes of text, and found[0], its length n. No NUL is put after it, and the bytes past it are
 * as they were. The text is an accepted chart; every vertex of the old chart has its number, place and value in it, and the new one is the
 * last. Which links it has beyond that is not promised: out half-edges, and numbers of half-edges and faces, may be others than in the old
 * chart. The old chart is only read; to go on with the new one, hand its text to the next call.
 * Refusals: 2 (found too short); 3 to 11, of the old chart; 13 (x, y or the value); 25; 26; 18. */
ESTIVOLH_MUST_CHECK
uint64_t estivolh_insert(const uint8_t *chart, size_t chart_length, int64_t x, int64_t y, int64_t value, uint8_t *text,
                         size_t text_length, uint64_t *found, size_t found_length);

#ifdef __cplusplus
}
#endif

#endif
