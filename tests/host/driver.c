/* Calls the library on requests from standard input and writes the answers to standard output.
 *
 * Request: call (1 wing, 2 sweep, 3 faces), d, v, s, h, input length, output length, length of the further output,
 * which wing alone has, each 32 bits low byte first; then the input. Answer: result (64 bits), then both outputs.
 * Around the input and the outputs stand guard bytes; a call that touches one, or its input, ends the program with
 * status 1. So does a call whose answer is another where a buffer of length 0 comes as NULL. */
#include <stdio.h>
#include <stdlib.h>
#include <string.h>

#include "winged.h"

enum { GUARD = 64, FRESH = 0xa5, EDGE = 0x5a };

static int get_u32(uint32_t *number)
{
    uint8_t b[4];

    if (fread(b, 1, 4, stdin) != 4)
        return 0;
    *number = (uint32_t)b[0] | (uint32_t)b[1] << 8 | (uint32_t)b[2] << 16 | (uint32_t)b[3] << 24;
    return 1;
}

/* A buffer of n bytes between guards; NULL as its content means fresh bytes. */
static uint8_t *guarded(size_t n, const uint8_t *content)
{
    uint8_t *whole = malloc(n + 2 * GUARD);

    if (!whole)
        exit(2);
    memset(whole, EDGE, n + 2 * GUARD);
    if (content)
        memcpy(whole + GUARD, content, n);
    else
        memset(whole + GUARD, FRESH, n);
    return whole;
}

static void check_edges(const uint8_t *whole, size_t n, const char *which)
{
    for (size_t i = 0; i < GUARD; i++)
        if (whole[i] != EDGE || whole[GUARD + n + i] != EDGE) {
            fprintf(stderr, "driver: a byte beside the %s was written\n", which);
            exit(1);
        }
}

static int64_t call(uint32_t which, const uint32_t *k, const uint8_t *in, size_t n, uint8_t *out, size_t m,
                    uint8_t *further, size_t f)
{
    switch (which) {
    case 1:
        return winged_wing(k[0], k[1], k[2], in, n, out, m, further, f);
    case 2:
        return winged_sweep(k[0], k[1], k[2], k[3], in, n, out, m);
    default:
        return winged_faces(k[0], k[1], k[2], in, n, out, m);
    }
}

static void answer(uint32_t which, const uint32_t *k, size_t n, size_t m, size_t f)
{
    uint8_t *content = malloc(n ? n : 1);
    uint8_t *in, *out, *further, result[8];
    int64_t r;

    if (!content || fread(content, 1, n, stdin) != n)
        exit(2);
    in = guarded(n, content);
    out = guarded(m, NULL);
    further = guarded(f, NULL);
    r = call(which, k, in + GUARD, n, out + GUARD, m, further + GUARD, f);
    if ((n == 0 || m == 0 || (which == 1 && f == 0)) &&
        call(which, k, n ? in + GUARD : NULL, n, m ? out + GUARD : NULL, m, f ? further + GUARD : NULL, f) != r) {
        fprintf(stderr, "driver: another answer with NULL for a buffer of length 0\n");
        exit(1);
    }
    check_edges(in, n, "input");
    check_edges(out, m, "output");
    check_edges(further, f, "further output");
    if (memcmp(in + GUARD, content, n) != 0) {
        fprintf(stderr, "driver: the input was written\n");
        exit(1);
    }
    for (int i = 0; i < 8; i++)
        result[i] = (uint8_t)((uint64_t)r >> (8 * i));
    fwrite(result, 1, 8, stdout);
    fwrite(out + GUARD, 1, m, stdout);
    fwrite(further + GUARD, 1, f, stdout);
    free(content);
    free(in);
    free(out);
    free(further);
}

int main(void)
{
    uint32_t which, k[4], n, m, f;

    while (get_u32(&which)) {
        for (int i = 0; i < 4; i++)
            if (!get_u32(&k[i]))
                return 2;
        if (!get_u32(&n) || !get_u32(&m) || !get_u32(&f))
            return 2;
        answer(which, k, n, m, f);
    }
    return 0;
}
