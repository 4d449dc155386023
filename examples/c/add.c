/* Bench tests added, from C: reads a chart file, named by the first argument, and new tests from standard input, three numbers each: x, y and
 * wear. Each test goes into the chart that the one before left. Prints the last chart's text; a refusal prints the number of the test, from 1
 * on, and that of the refusal instead. */
#include <inttypes.h>
#include <stdio.h>

#include "estivolh.h"

int main(int arguments, char **names) {
    /* the chart, and room for the next one: they change places */
    static uint8_t room[2][ESTIVOLH_CHART_BYTES_MAX + 1];
    FILE *file = arguments == 2 ? fopen(names[1], "rb") : NULL;
    if (file == NULL) {
        fprintf(stderr, "usage: add CHART <TESTS\n");
        return 1;
    }
    size_t length = fread(room[0], 1, sizeof room[0], file);
    fclose(file);
    uint8_t *chart = room[0], *text = room[1];
    int64_t x, y, value;
    for (uint64_t test = 1; scanf("%" SCNd64 "%" SCNd64 "%" SCNd64, &x, &y, &value) == 3; test++) {
        uint64_t found[1];
        uint64_t refusal = estivolh_insert(chart, length, x, y, value, text, sizeof room[0], found, 1);
        if (refusal != ESTIVOLH_ACCEPTED) {
            printf("%8" PRIu64 "%8" PRIu64 "\n", test, refusal);
            return 1;
        }
        uint8_t *old = chart;
        chart = text;
        length = found[0];
        text = old;
    }
    return fwrite(chart, 1, length, stdout) == length ? 0 : 1;
}
