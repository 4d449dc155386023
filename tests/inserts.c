/* Answers a stream of charts and new bench tests (oracle/README.md, "New bench tests") by the exported call: with `refused N`, or with the
 * length of the new chart's text and the text. It says `changed` where a byte that the call must leave is not as it was: a lent one past the
 * text, any lent one of a refused call, the length of a refused call, or one of the old chart. */
#include <inttypes.h>
#include <stdio.h>
#include <stdlib.h>
#include <string.h>

#include "estivolh.h"

#define GUARD 0xaa
#define UNSAID UINT64_C(0xa5a5a5a5a5a5a5a5)

static uint8_t *space(size_t n) {
    uint8_t *p = malloc(n + 1);
    if (p == NULL) {
        exit(1);
    }
    return p;
}

static int guarded(const uint8_t *p, size_t from, size_t to) {
    while (from < to && p[from] == GUARD) {
        from++;
    }
    return from == to;
}

int main(void) {
    uint8_t *chart = space(0);
    size_t length = 0, room;
    int64_t x, y, value;
    char word[8];
    while (scanf("%7s", word) == 1) {
        if (strcmp(word, "chart") == 0) {
            if (scanf("%zu", &length) != 1 || getchar() != 10) {
                return 1;
            }
            free(chart);
            chart = space(length);
            if (fread(chart, 1, length, stdin) != length) {
                return 1;
            }
            continue;
        }
        if (scanf("%" SCNd64 "%" SCNd64 "%" SCNd64 "%zu", &x, &y, &value, &room) != 4) {
            return 1;
        }
        uint8_t *text = space(room), *old = space(length);
        uint64_t found[2] = {UNSAID, UNSAID};
        memset(text, GUARD, room);
        memcpy(old, chart, length);
        uint64_t refusal = estivolh_insert(chart, length, x, y, value, text, room, found, 2);
        size_t n = refusal == ESTIVOLH_ACCEPTED ? found[0] : 0;
        if (refusal != ESTIVOLH_ACCEPTED) {
            printf("refused %" PRIu64, refusal);
        } else {
            printf("text %zu", n);
        }
        int kept = found[1] == UNSAID && (refusal == ESTIVOLH_ACCEPTED || found[0] == UNSAID);
        printf(kept && n <= room && guarded(text, n, room) && memcmp(old, chart, length) == 0 ? "\n" : " changed\n");
        free(old);
        fwrite(text, 1, n, stdout);
        if (refusal == ESTIVOLH_ACCEPTED && strcmp(word, "grow") == 0) {
            free(chart);
            chart = text;
            length = n;
        } else {
            free(text);
        }
    }
    free(chart);
    return 0;
}
