/* A host in C: two triangles are winged, swept in one step, and the boundary of the sweep is printed.
 * It prints the faces of the marked key K2, one a line. */
#include <inttypes.h>
#include <stdio.h>
#include <stdlib.h>

#include "winged.h"

enum { D = 2, V = 4, S = 2, H = 1 };
enum { SWEPT = H * S * (D + 1) };

/* +(0 1 2) and -(1 2 3), each a sign word, a material and three vertices */
static const uint16_t solid[S * (D + 3)] = {0, 0, 0, 1, 2, 1, 0, 1, 2, 3};

static void put_word(uint8_t *bytes, size_t at, uint16_t word)
{
    bytes[2 * at] = (uint8_t)(word & 255);
    bytes[2 * at + 1] = (uint8_t)(word >> 8);
}

static unsigned get_word(const uint8_t *bytes, size_t at)
{
    return bytes[2 * at] + 256u * bytes[2 * at + 1];
}

/* The answer of a call, or an end with its refusal. */
static size_t answered(const char *call, int64_t answer)
{
    if (answer < 0) {
        fprintf(stderr, "%s: refused %" PRId64 "\n", call, -answer);
        exit(1);
    }
    return (size_t)answer;
}

int main(void)
{
    uint8_t cells[WINGED_LIST_BYTES(D, S)];
    uint8_t table[WINGED_TABLE_BYTES(D, S)];
    uint8_t uploaded[WINGED_UPLOADED_BYTES(D, S)];
    uint8_t swept[WINGED_SWEPT_BYTES(D, S, H)];
    uint8_t faces[WINGED_FACES_BYTES(D + 1, SWEPT)];
    size_t words, size = WINGED_FACE(D + 1);

    for (size_t i = 0; i < S * (D + 3); i++)
        put_word(cells, i, solid[i]);
    answered("wing", winged_wing(D, V, S, cells, sizeof cells, table, sizeof table, uploaded, sizeof uploaded));
    answered("sweep", winged_sweep(D, V, S, H, table, sizeof table, swept, sizeof swept));
    words = answered("faces", winged_faces(D + 1, (H + 1) * V, SWEPT, swept, sizeof swept, faces, sizeof faces));
    for (size_t at = 0; at < words; at += size) {
        printf("%c", get_word(faces, at) == 0 ? '+' : '-');
        for (size_t i = 1; i <= D + 1; i++) /* the last word is the material */
            printf(" %u", get_word(faces, at + i));
        printf("\n");
    }
    return 0;
}
