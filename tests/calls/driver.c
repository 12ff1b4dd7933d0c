/* Shows what read, move, list and key answer and write, case by case, for a comparison with the reference.
 *
 * A case on standard input begins with a number that says what it is. All numbers have 64 bits, low byte first; one that
 * a call cannot take, since it has 32 bits, becomes the largest that it can.
 *   1, 2, 3   a move by a slide, a slant, a turn: two axes, three floats by their bits, n, v, h, the floats lent as points
 *             and for the answer; then the points
 *   4         a file to read: its bytes, the words and the floats lent; then the file
 *   5         a table to list: version, d, n, v, s, its words, the points' floats, the bytes lent; then words and points
 *   6, 7, 8   move, read and list by bytes: the call's numbers, the lengths of all buffers in bytes, then the inputs
 *   9         a file to its key: its bytes, the bytes lent; then the file
 * Every output holds marks before the call. Around all buffers stand guard bytes; a call that touches one, or an input,
 * ends the program with status 1. So does a call whose answer is another where a buffer of length 0 comes as NULL. */
#include <inttypes.h>
#include <stdio.h>
#include <stdlib.h>
#include <string.h>

#include "winged.h"

enum { GUARD = 64, EDGE = 0x5a, MARK = 0xa5, HEADER = 42 };

/* -700001.625 */
static const uint8_t FLOAT_MARK[8] = {0x00, 0x00, 0x00, 0x40, 0xc3, 0x5c, 0x25, 0xc1};

typedef struct {
    uint8_t *whole, *kept, *bytes;
    size_t n;
} Buffer;

/* What a call is given: its numbers and its buffers in order, the rest without memory. */
typedef struct {
    uint64_t kind;
    const uint64_t *k;
    Buffer b[4];
} Case;

static int get(uint64_t *x)
{
    uint8_t b[8];

    if (fread(b, 1, 8, stdin) != 8)
        return 0;
    *x = 0;
    for (int i = 0; i < 8; i++)
        *x |= (uint64_t)b[i] << (8 * i);
    return 1;
}

static void get_all(uint64_t *x, int count)
{
    for (int i = 0; i < count; i++)
        if (!get(&x[i]))
            exit(2);
}

static uint32_t small(uint64_t x)
{
    return x > UINT32_MAX ? UINT32_MAX : (uint32_t)x;
}

/* n bytes between guards, each run of them the mark of the given length. */
static Buffer buffer(size_t n, const uint8_t *mark, size_t length)
{
    Buffer b = {malloc(n + 2 * GUARD), malloc(n + 1), NULL, n};

    if (!b.whole || !b.kept)
        exit(2);
    memset(b.whole, EDGE, n + 2 * GUARD);
    b.bytes = b.whole + GUARD;
    for (size_t i = 0; i < n; i++)
        b.bytes[i] = mark[i % length];
    memcpy(b.kept, b.bytes, n);
    return b;
}

static Buffer output(size_t n)
{
    const uint8_t mark = MARK;

    return buffer(n, &mark, 1);
}

static Buffer input(size_t n)
{
    Buffer b = output(n);

    if (fread(b.bytes, 1, n, stdin) != n)
        exit(2);
    memcpy(b.kept, b.bytes, n);
    return b;
}

/* Whether bytes from a place on changed. */
static size_t changed(Buffer b, size_t from, size_t size)
{
    size_t count = 0;

    for (size_t i = from; i + size <= b.n; i += size)
        count += memcmp(b.bytes + i, b.kept + i, size) != 0;
    return count;
}

static void check(Buffer b, int is_input)
{
    for (size_t i = 0; i < GUARD; i++)
        if (b.whole[i] != EDGE || b.bytes[b.n + i] != EDGE) {
            fprintf(stderr, "driver: a byte beside a buffer was written\n");
            exit(1);
        }
    if (is_input && changed(b, 0, 1)) {
        fprintf(stderr, "driver: an input was written\n");
        exit(1);
    }
}

static void done(Buffer b, int is_input)
{
    check(b, is_input);
    free(b.whole);
    free(b.kept);
}

static uint64_t number(const uint8_t *b, size_t size)
{
    uint64_t x = 0;

    for (size_t i = 0; i < size; i++)
        x |= (uint64_t)b[i] << (8 * i);
    return x;
}

/* Words or floats, each behind a space. */
static void print_numbers(const uint8_t *b, size_t count, size_t size)
{
    for (size_t i = 0; i < count; i++)
        printf(" %0*" PRIx64, (int)(2 * size), number(b + i * size, size));
    printf("\n");
}

static void print_bytes(Buffer b)
{
    static const char digits[] = "0123456789abcdef";

    for (size_t i = 0; i < b.n; i++) {
        putchar(digits[b.bytes[i] >> 4]);
        putchar(digits[b.bytes[i] & 15]);
    }
    printf("\n");
}

static void print_answer(const char *word, int64_t r)
{
    if (r < 0)
        printf("refused %" PRId64 "\n", -r);
    else
        printf("%s %" PRId64 "\n", word, r);
}

static int64_t call_move(const Case *c)
{
    const uint64_t *k = c->k;

    return winged_move(small(k[5]), small(k[6]), small(k[7]), small(c->kind), small(k[0]), small(k[1]), k[2], k[3], k[4],
                       c->b[0].bytes, c->b[0].n, c->b[1].bytes, c->b[1].n);
}

static int64_t call_read(const Case *c)
{
    return winged_read(c->b[0].bytes, c->b[0].n, c->b[1].bytes, c->b[1].n, c->b[2].bytes, c->b[2].n, c->b[3].bytes, c->b[3].n);
}

static int64_t call_list(const Case *c)
{
    const uint64_t *k = c->k;

    return winged_list(small(k[0]), small(k[1]), small(k[2]), small(k[3]), small(k[4]), c->b[0].bytes, c->b[0].n, c->b[1].bytes,
                       c->b[1].n, c->b[2].bytes, c->b[2].n);
}

static int64_t call_key(const Case *c)
{
    return winged_key(c->b[0].bytes, c->b[0].n, c->b[1].bytes, c->b[1].n);
}

/* The answer of a call. Where a buffer has length 0 the call is made again with NULL in its place. */
static int64_t answer(int64_t (*call)(const Case *), Case c)
{
    int64_t r = call(&c);
    int empty = 0;

    for (int i = 0; i < 4 && c.b[i].whole; i++)
        if (c.b[i].n == 0) {
            c.b[i].bytes = NULL;
            empty = 1;
        }
    if (empty && call(&c) != r) {
        fprintf(stderr, "driver: another answer with NULL for a buffer of length 0\n");
        exit(1);
    }
    return r;
}

static void move_case(uint64_t kind)
{
    uint64_t k[10];

    get_all(k, 10);
    Buffer points = input(8 * k[8]), levels = buffer(8 * k[9], FLOAT_MARK, 8);
    print_answer("moved", answer(call_move, (Case){kind, k, {points, levels}}));
    printf("buffer");
    print_numbers(levels.bytes, k[9], 8);
    done(points, 1);
    done(levels, 0);
}

/* What the header's 42 bytes say; the version, which stands last, comes first here. */
static void print_header(const uint8_t *h)
{
    uint64_t w[8];

    for (int i = 0; i < 8; i++)
        w[i] = number(h + 2 * i, 2);
    printf("read %" PRIu64, number(h + 40, 2));
    printf(" %" PRIu64 " %" PRIu64 " %" PRIu64 " %" PRIu64 " %" PRIu64 "\n", w[0], w[1], w[2], w[3], w[4]);
    if (w[5] == 1)
        printf("slide %" PRIu64 " %016" PRIx64 "\n", w[6], number(h + 16, 8));
    else if (w[5] == 2)
        printf("slant %" PRIu64 " %016" PRIx64 " %" PRIu64 " %016" PRIx64 "\n", w[6], number(h + 16, 8), w[7], number(h + 24, 8));
    else
        printf("turn %016" PRIx64 " %016" PRIx64 " %016" PRIx64 "\n", number(h + 16, 8), number(h + 24, 8), number(h + 32, 8));
}

static void read_case(void)
{
    uint64_t k[3];
    size_t words = 0, floats = 0;

    get_all(k, 3);
    Buffer file = input(k[0]), header = output(HEADER + 3), cells = output(2 * k[1]), points = buffer(8 * k[2], FLOAT_MARK, 8);
    int64_t r = answer(call_read, (Case){0, k, {file, header, cells, points}});
    if (r < 0) {
        print_answer("", r);
    } else {
        words = (size_t)r;
        floats = (size_t)(number(header.bytes + 2, 2) * number(header.bytes + 4, 2));
        print_header(header.bytes);
        printf("cells");
        print_numbers(cells.bytes, words, 2);
        printf("points");
        print_numbers(points.bytes, floats, 8);
    }
    if (changed(header, r < 0 ? 0 : HEADER, 1))
        exit(1);
    printf("behind %zu %zu\n", changed(cells, 2 * words, 2), changed(points, 8 * floats, 8));
    done(file, 1);
    done(header, 0);
    done(cells, 0);
    done(points, 0);
}

static void list_bytes(size_t size)
{
    uint64_t k[8];

    get_all(k, 8);
    Buffer table = input(size == 1 ? k[5] : 2 * k[5]), points = input(size == 1 ? k[6] : 8 * k[6]), text = output(k[7]);
    print_answer("listed", answer(call_list, (Case){0, k, {table, points, text}}));
    printf("buffer ");
    print_bytes(text);
    done(table, 1);
    done(points, 1);
    done(text, 0);
}

static void move_bytes(void)
{
    uint64_t kind, k[10];

    get_all(&kind, 1);
    get_all(k, 10);
    Buffer points = input(k[8]), levels = output(k[9]);
    print_answer("moved", answer(call_move, (Case){kind, k, {points, levels}}));
    printf("buffer ");
    print_bytes(levels);
    done(points, 1);
    done(levels, 0);
}

static void read_bytes(void)
{
    uint64_t k[4];

    get_all(k, 4);
    Buffer file = input(k[0]), header = output(k[1]), cells = output(k[2]), points = output(k[3]);
    print_answer("read", answer(call_read, (Case){0, k, {file, header, cells, points}}));
    print_bytes(header);
    print_bytes(cells);
    printf("behind ");
    print_bytes(points);
    done(file, 1);
    done(header, 0);
    done(cells, 0);
    done(points, 0);
}

static void key_case(void)
{
    uint64_t k[2];

    get_all(k, 2);
    Buffer file = input(k[0]), text = output(k[1]);
    print_answer("printed", answer(call_key, (Case){0, k, {file, text}}));
    printf("buffer ");
    print_bytes(text);
    done(file, 1);
    done(text, 0);
}

int main(void)
{
    uint64_t kind;

    while (get(&kind) && kind) {
        if (kind == 4)
            read_case();
        else if (kind == 5)
            list_bytes(2);
        else if (kind == 6)
            move_bytes();
        else if (kind == 7)
            read_bytes();
        else if (kind == 8)
            list_bytes(1);
        else if (kind == 9)
            key_case();
        else
            move_case(kind);
    }
    return 0;
}
