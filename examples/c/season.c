/* A season's log in two batches, from C: reads a chart (its path is the argument), keeps a book of two sections over both batches, and
 * prints each entry's number and answer, then section, wear and bend count, then the retired wear. A refusal prints its number alone. */
#include <inttypes.h>
#include <stdio.h>

#include "estivolh.h"

#define SECTIONS 2
#define BATCH 2 /* entries of a batch */
#define CHART_MAX (ESTIVOLH_CHART_BYTES_MAX + 1) /* one byte more than the largest chart: a longer file is refused by its length */

/* The entries of examples/triangle-a/log.txt. The splice is not the last entry of its batch. */
static const int64_t batches[2][BATCH * ESTIVOLH_ENTRY_NUMBERS] = {
    {ESTIVOLH_BEND, 0, 2, 3, ESTIVOLH_BARYCENTRIC, ESTIVOLH_BEND, 1, 5, -1, ESTIVOLH_BARYCENTRIC},
    {ESTIVOLH_SPLICE, 0, 0, 0, 0, ESTIVOLH_BEND, 0, 5, 0, ESTIVOLH_NATURAL},
};

static size_t read_file(const char *path, uint8_t *bytes, size_t most) {
    FILE *file = fopen(path, "rb");
    if (file == NULL) {
        return 0; /* an empty chart, which is refused */
    }
    size_t n = fread(bytes, 1, most, file);
    fclose(file);
    return n;
}

static int refused(uint64_t number) {
    printf("%8" PRIu64 "\n", number);
    return 1;
}

int main(int argc, char **argv) {
    static uint8_t chart[CHART_MAX];
    size_t size = read_file(argc > 1 ? argv[1] : "examples/triangle-a/chart.txt", chart, sizeof chart);

    uint64_t book[ESTIVOLH_BOOK_NUMBERS];
    uint64_t refusal = estivolh_fresh(SECTIONS, book, ESTIVOLH_BOOK_NUMBERS);
    if (refusal != ESTIVOLH_ACCEPTED) {
        return refused(refusal);
    }
    for (int batch = 0; batch < 2; batch++) {
        uint64_t answers[BATCH];
        refusal = estivolh_batch(book, ESTIVOLH_BOOK_NUMBERS, chart, size, batches[batch], BATCH * ESTIVOLH_ENTRY_NUMBERS, answers, BATCH);
        if (refusal != ESTIVOLH_ACCEPTED) {
            return refused(refusal);
        }
        for (int i = 0; i < BATCH; i++) {
            printf("%8d%8" PRIu64 "\n", batch * BATCH + i + 1, answers[i]);
        }
    }
    for (int s = 0; s < SECTIONS; s++) {
        printf("%8d%16" PRIu64 "%16" PRIu64 "\n", s, book[ESTIVOLH_BOOK_WEAR + s], book[ESTIVOLH_BOOK_BENDS + s]);
    }
    printf("%16" PRIu64 "\n", book[ESTIVOLH_BOOK_RETIRED]);
    return 0;
}
