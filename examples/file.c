/* From a file's bytes to its key, call by call: read, wing, sweep, move and list. usage: file FILE
 * winged_key does the same in one call, for files of up to 65,536 bytes. */
#include <inttypes.h>
#include <stdio.h>
#include <stdlib.h>

#include "winged.h"

enum { MOST = 331816 }; /* bytes of the longest file that winged_read takes */

static uint8_t file[MOST + 1], header[WINGED_HEADER_BYTES];
static uint8_t cells[WINGED_LIST_BYTES(WINGED_MAX_SOURCE, WINGED_MAX_CELLS)];
static uint8_t points[WINGED_POINTS_BYTES(WINGED_MAX_AXES, WINGED_MAX_VERTICES)];
static uint8_t table[WINGED_TABLE_BYTES(WINGED_MAX_SOURCE, WINGED_MAX_CELLS)];
static uint8_t uploaded[WINGED_UPLOADED_BYTES(WINGED_MAX_SOURCE, WINGED_MAX_CELLS)];
static uint8_t swept[WINGED_TABLE_BYTES(WINGED_MAX_DIMENSION, WINGED_MAX_CELLS)];
static uint8_t levels[WINGED_POINTS_BYTES(WINGED_MAX_AXES, WINGED_MAX_VERTICES)];
static uint8_t text[1 << 21];

/* A number of the header: a word of 2 bytes or a float's 8. */
static uint64_t number(size_t at, size_t size)
{
    uint64_t x = 0;

    for (size_t i = 0; i < size; i++)
        x |= (uint64_t)header[at + i] << (8 * i);
    return x;
}

/* The answer of a call, or an end with its refusal. */
static size_t answered(const char *call, int64_t answer)
{
    if (answer < 0) {
        fprintf(stderr, "%s: refused %" PRId64 "\n", call, -answer);
        exit(1);
    }
    return (size_t)answer;
}

int main(int count, char **names)
{
    FILE *in = count == 2 ? fopen(names[1], "rb") : NULL;
    size_t size, words, table_words, swept_words, floats;
    uint32_t k[8];

    if (!in) {
        fprintf(stderr, "usage: file FILE\n");
        return 2;
    }
    size = fread(file, 1, sizeof file, in);
    words = answered("read", winged_read(file, size, header, sizeof header, cells, sizeof cells, points, sizeof points));
    for (size_t i = 0; i < 8; i++)
        k[i] = (uint32_t)number(2 * i, 2);
    uint32_t d = k[0], n = k[1], v = k[2], s = k[3], h = k[4];
    table_words = answered("wing", winged_wing(d, v, s, cells, 2 * words, table, sizeof table, uploaded,
                                               sizeof uploaded));
    swept_words = answered("sweep", winged_sweep(d, v, s, h, table, 2 * table_words, swept, sizeof swept));
    floats = answered("move", winged_move(n, v, h, k[5], k[6], k[7], number(16, 8), number(24, 8), number(32, 8), points,
                                          WINGED_POINTS_BYTES(n, v), levels, sizeof levels));
    size = answered("list", winged_list((uint32_t)number(40, 2), d + 1, n, (h + 1) * v, (uint32_t)WINGED_SWEPT_CELLS(d, s, h),
                                        swept, 2 * swept_words, levels, 8 * floats, text, sizeof text));
    return fwrite(text, 1, size, stdout) == size ? 0 : 1;
}
