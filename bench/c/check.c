/* check CHART N    Calls estivolh_check N times on a chart's bytes and prints the sum of its answers: what bench/instructions counts. */
#include "estivolh.h"

#include <stdio.h>
#include <stdlib.h>

int main(int argc, char **argv)
{
    static uint8_t chart[ESTIVOLH_CHART_BYTES_MAX];
    FILE *file = argc == 3 ? fopen(argv[1], "rb") : NULL;
    if (file == NULL) {
        return 2;
    }
    size_t length = fread(chart, 1, sizeof chart, file);
    fclose(file);
    uint64_t refusals = 0;
    for (int i = atoi(argv[2]); i > 0; i--) {
        refusals += estivolh_check(chart, length);
    }
    printf("%llu\n", (unsigned long long)refusals);
    return 0;
}
