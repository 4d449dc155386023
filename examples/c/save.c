/* A chart saved, from C: reads a chart's numbers from standard input, in a chart file's order and with any spaces and line ends between them,
 * and prints its chart text. A refusal prints its number alone. */
#include <inttypes.h>
#include <stdio.h>

#include "estivolh.h"

/* The most lines of each table, and one more: a longer table is lent with one line too many, and the call refuses it. */
#define VERTICES (128 + 1)
#define HALF_EDGES (756 + 1)
#define FACES (252 + 1)

static size_t lines(int64_t count, size_t most) {
    return count < 0 ? 0 : (uint64_t)count < most ? (size_t)count : most;
}

/* Whether so many numbers could be read. */
static int read_numbers(int64_t *numbers, size_t n) {
    size_t i = 0;
    while (i < n && scanf("%" SCNd64, &numbers[i]) == 1) {
        i++;
    }
    return i == n;
}

int main(void) {
    static int64_t vertices[4 * VERTICES], half_edges[4 * HALF_EDGES], faces[FACES];
    static uint8_t text[ESTIVOLH_CHART_BYTES_MAX];
    int64_t counts[3];
    if (!read_numbers(counts, 3)) {
        fprintf(stderr, "save: no counts of vertices, half-edges and faces\n");
        return 1;
    }
    size_t v = 4 * lines(counts[0], VERTICES);
    size_t e = 4 * lines(counts[1], HALF_EDGES);
    size_t f = lines(counts[2], FACES);
    if (!read_numbers(vertices, v) || !read_numbers(half_edges, e) || !read_numbers(faces, f)) {
        fprintf(stderr, "save: fewer numbers than the counts say\n");
        return 1;
    }
    uint64_t found[1];
    uint64_t refusal = estivolh_write_chart(vertices, v, half_edges, e, faces, f, text, sizeof text, found, 1);
    if (refusal != ESTIVOLH_ACCEPTED) {
        printf("%8" PRIu64 "\n", refusal);
        return 1;
    }
    return fwrite(text, 1, found[0], stdout) == found[0] ? 0 : 1;
}
