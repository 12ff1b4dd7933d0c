/* Calls the library at its largest: read, wing, sweep, move and faces, also of a table with a fault, to be run with a stack
 * of 512 KB; with the argument fault, wing of a list with a fault, with 16 KB more for the process itself; with the argument
 * each, wing and faces in each dimension, with as much; with the argument long, list and key, with 1 MB. */
#include <stdint.h>
#include <stdio.h>
#include <string.h>

#include "winged.h"

enum { V = 4096, S = 4089 };

static uint8_t list[WINGED_LIST_BYTES(7, S)];
static uint8_t table[WINGED_TABLE_BYTES(7, WINGED_MAX_CELLS)];
static uint8_t uploaded[WINGED_UPLOADED_BYTES(7, WINGED_MAX_CELLS)];
static uint8_t file[40 + 8 * 8 * 4096 + 5 * 4096], points[WINGED_POINTS_BYTES(8, 4096)], levels[WINGED_POINTS_BYTES(8, 4096)];
static uint8_t header[WINGED_HEADER_BYTES], text[1 << 21];
static const uint64_t ONE = 0x3ff0000000000000; /* the bits of 1.0 */
/* a point slid by 1 on its axis */
static const uint8_t small[51] = {'W', 'N', 'G', 1, 0, 0, 1, 1, 0, 1, 0, 1, 0, 1, [22] = 0xf0, 0x3f, [48] = '+'};
static uint8_t out[WINGED_FACES_BYTES(7, WINGED_MAX_CELLS)];

/* A strip of s cells of dimension d: cell p is on p, p + 1, .. , p + d, of material p % 1000. Its bytes. */
static size_t strip(unsigned d, unsigned s)
{
    size_t n = 0;
    for (unsigned p = 0; p < s; p++)
        for (unsigned j = 0; j < WINGED_LIST_CELL(d); j++) {
            unsigned word = j == 0 ? p * (d + 1) % 2 : j == 1 ? p % (WINGED_MAX_MATERIAL + 1) : p + j - 2;
            list[n++] = (uint8_t)(word & 255);
            list[n++] = (uint8_t)(word >> 8);
        }
    return n;
}

/* Says which call failed. */
static int refused(const char *call, int64_t answer)
{
    if (answer >= 0)
        return 0;
    printf("%s: refused %d\n", call, (int)-answer);
    return 1;
}

/* A file of version 2: 4,096 points, each a cell, in eight axes. */
static size_t file_of_points(void)
{
    static const uint8_t start[14] = {'W', 'N', 'G', 2, 0, 0, 8, 0, 16, 0, 16, 1, 0, 1};

    for (size_t i = 0; i < sizeof start; i++)
        file[i] = start[i];
    for (size_t p = 0; p < 4096; p++) {
        uint8_t *cell = file + 40 + 8 * 8 * 4096 + 5 * p;

        cell[0] = '+';
        cell[3] = (uint8_t)(p & 255);
        cell[4] = (uint8_t)(p >> 8);
    }
    return sizeof file;
}

static int long_calls(void)
{
    size_t n = file_of_points();
    int64_t words = winged_wing(7, V, S, list, strip(7, S), table, sizeof table, uploaded, sizeof uploaded);

    if (refused("wing", words))
        return 1;
    for (uint32_t version = 1; version <= 2; version++)
        if (refused("list", winged_list(version, 7, 8, V, S, table, 2 * (size_t)words, points, sizeof points, text, sizeof text)))
            return 1;
    return refused("key", winged_key(file, n, text, sizeof text)) || refused("key", winged_key(small, sizeof small, text, sizeof text));
}

/* A sign that is wrong, so that all faces are matched. */
static int faulty_list(void)
{
    size_t n = strip(7, S);

    list[n - 2 * WINGED_LIST_CELL(7)] ^= 1;
    if (winged_wing(7, V, S, list, n, table, sizeof table, uploaded, sizeof uploaded) == -11)
        return 0;
    puts("wing: a wrong sign was not refused");
    return 1;
}

/* wing and faces in each dimension, since the arrays of a call are by size. */
static int each_dimension(void)
{
    for (unsigned d = 1; d <= 7; d++) {
        int64_t n = winged_wing(d, V, S, list, strip(d, S), table, sizeof table, uploaded, sizeof uploaded);

        if (refused("wing", n) || refused("faces", winged_faces(d, V, S, table, 2 * (size_t)n, out, sizeof out)))
            return 1;
    }
    return 0;
}

int main(int count, char **names)
{
    if (count > 1)
        return strcmp(names[1], "fault") == 0 ? faulty_list() : strcmp(names[1], "each") == 0 ? each_dimension() : long_calls();
    int64_t n = winged_wing(7, V, S, list, strip(7, S), table, sizeof table, uploaded, sizeof uploaded);
    if (refused("wing", n) || refused("faces", winged_faces(7, V, S, table, 2 * (size_t)n, out, sizeof out)))
        return 1;
    table[2 * (size_t)n - 1] ^= 1; /* a wing that is wrong, so that all faces are matched */
    if (winged_faces(7, V, S, table, 2 * (size_t)n, out, sizeof out) != -14) {
        puts("faces: a wrong wing was not refused");
        return 1;
    }
    if (refused("read", winged_read(file, file_of_points(), header, sizeof header, table, sizeof table, points, sizeof points)) ||
        refused("move", winged_move(8, 2048, 1, WINGED_SLIDE, 7, 0, ONE, 0, 0, points, sizeof points / 2, levels, sizeof levels)))
        return 1;
    n = winged_wing(6, 2048, 585, list, strip(6, 585), table, sizeof table, uploaded, sizeof uploaded);
    return refused("wing", n) || refused("sweep", winged_sweep(6, 2048, 585, 1, table, 2 * (size_t)n, out, sizeof out));
}
