/* Wings, sweeps and boundaries of cells written as text, through the library.
 *
 *     wings V [H] <CELLS
 *     wings -u V <CELLS
 *
 * A line of the input is a cell on V vertices: + or -, its vertex numbers, and, if it has one, ':' and its material; where
 * there is no line, the solid is without cells, of dimension 0. Printed are the table of the cells, or of their sweep in H
 * steps, and the boundary. A line of the table: the cell's number, its sign and vertices, its wings, with a point for the
 * empty wing. A line of the boundary is a face. If a line of the input has a material, cells and faces are printed with
 * theirs. With -u a cell's line has the vertices in the order in which they stand in the input, and the wings in that order,
 * and there is no boundary. A refused call is told by the line "refused N". */
#include <inttypes.h>
#include <stdio.h>
#include <stdlib.h>
#include <string.h>

#include "winged.h"

enum { D = WINGED_MAX_DIMENSION, S = WINGED_MAX_CELLS };

static uint8_t cells[WINGED_LIST_BYTES(D, S)];
static uint8_t table[WINGED_TABLE_BYTES(D, S)];
static uint8_t uploaded[WINGED_UPLOADED_BYTES(D, S)];
static uint8_t swept[WINGED_TABLE_BYTES(D, S)];
static uint8_t faces[WINGED_FACES_BYTES(D, S)];
static int with_materials; /* whether a line of the input has one */

/* A solid or its sweep: dimension, vertices, cells, and its table. */
struct solid {
    uint32_t d, v, s;
    const uint8_t *table;
};

static void put_word(uint8_t *bytes, size_t at, unsigned word)
{
    bytes[2 * at] = (uint8_t)(word & 255);
    bytes[2 * at + 1] = (uint8_t)(word >> 8);
}

static unsigned get_word(const uint8_t *bytes, size_t at)
{
    return bytes[2 * at] + 256u * bytes[2 * at + 1];
}

static void wrong(const char *reason)
{
    fprintf(stderr, "wings: %s\n", reason);
    exit(2);
}

/* The words of a call's answer; a refusal is printed, and ends the program. */
static size_t answered(int64_t answer)
{
    if (answer < 0) {
        printf("refused %" PRId64 "\n", -answer);
        exit(1);
    }
    return (size_t)answer;
}

static uint32_t number(const char *word)
{
    char *end;
    unsigned long n = strtoul(word, &end, 10);
    if (*word < '0' || *word > '9' || *end != '\0' || n > UINT32_MAX)
        wrong("V and H are whole numbers");
    return (uint32_t)n;
}

/* Reads the cell of one line to the given words, and tells how many vertices it has. */
static size_t read_cell(const char *line, uint8_t *to)
{
    static const char form[] = "a line of the input is + or -, vertex numbers, and perhaps ':' and a material";
    size_t n = 0;
    char *end;
    if (*line != '+' && *line != '-')
        wrong(form);
    put_word(to, 0, *line == '-');
    put_word(to, 1, 0);
    for (line++;; line = end) {
        unsigned long vertex = strtoul(line, &end, 10);
        if (end == line)
            break;
        if (n > D || vertex > 65535)
            wrong("a cell has at most 8 vertices, each below 65,536");
        put_word(to, 2 + n++, (unsigned)vertex);
    }
    while (*line == ' ')
        line++;
    if (*line == ':') {
        unsigned long material = strtoul(++line, &end, 10);
        if (end == line || material > 65535)
            wrong("a material is a number below 65,536");
        put_word(to, 1, (unsigned)material);
        with_materials = 1;
        line = end;
    }
    while (*line == ' ' || *line == '\n')
        line++;
    if (n == 0 || *line != '\0')
        wrong(form);
    return n;
}

/* All cells of the input. They have as many vertices as the first. */
static struct solid read_cells(uint32_t v)
{
    char line[256];
    struct solid read = {0, v, 0, table};
    for (size_t at = 0; fgets(line, sizeof line, stdin) != NULL; read.s++) {
        if (read.s == S)
            wrong("too many cells");
        size_t n = read_cell(line, cells + 2 * at);
        if (read.s > 0 && n != read.d + 1)
            wrong("cells have as many vertices as the first");
        read.d = (uint32_t)n - 1;
        at += WINGED_LIST_CELL(read.d);
    }
    return read;
}

/* A cell or a face: its sign, and its vertices and its material from these words on. */
static void print_cell(const uint8_t *record, size_t first, size_t vertices, size_t material)
{
    printf("%c", get_word(record, 0) == 0 ? '+' : '-');
    for (size_t i = 0; i < vertices; i++)
        printf(" %u", get_word(record, first + i));
    if (with_materials)
        printf(" : %u", get_word(record, material));
}

/* Cell p and its wings. */
static void print_winged(uint32_t p, const uint8_t *cell, const uint8_t *wings, size_t vertices)
{
    printf("%" PRIu32 ": ", p);
    print_cell(cell, 2, vertices, 1);
    printf(" wings");
    for (size_t i = 0; i < vertices; i++) {
        unsigned wing = get_word(wings, i);
        if (wing == WINGED_EMPTY)
            printf(" .");
        else
            printf(" %u", wing);
    }
    printf("\n");
}

static void print_table(struct solid x)
{
    for (uint32_t p = 0; p < x.s; p++) {
        const uint8_t *record = x.table + 2 * p * WINGED_RECORD(x.d);
        print_winged(p, record, record + 2 * WINGED_LIST_CELL(x.d), x.d + 1);
    }
}

static void print_uploaded(struct solid x)
{
    for (uint32_t p = 0; p < x.s; p++)
        print_winged(p, cells + 2 * p * WINGED_LIST_CELL(x.d), uploaded + 2 * p * WINGED_WINGS(x.d), x.d + 1);
}

static void print_boundary(struct solid x)
{
    size_t words = answered(winged_faces(x.d, x.v, x.s, x.table, WINGED_TABLE_BYTES(x.d, x.s), faces, sizeof faces));
    printf("boundary\n");
    for (size_t at = 0; at < words; at += WINGED_FACE(x.d)) {
        print_cell(faces + 2 * at, 1, x.d, x.d + 1);
        printf("\n");
    }
}

int main(int argc, char **argv)
{
    if (argc != 2 && argc != 3)
        wrong("usage: wings V [H] <CELLS, or wings -u V <CELLS");
    int as_read = argc == 3 && strcmp(argv[1], "-u") == 0;
    struct solid x = read_cells(number(argv[as_read ? 2 : 1]));
    answered(winged_wing(x.d, x.v, x.s, cells, WINGED_LIST_BYTES(x.d, x.s), table, sizeof table, uploaded,
                         sizeof uploaded));
    if (as_read) {
        print_uploaded(x);
        return 0;
    }
    if (argc == 3) {
        uint32_t h = number(argv[2]);
        answered(winged_sweep(x.d, x.v, x.s, h, table, WINGED_TABLE_BYTES(x.d, x.s), swept, sizeof swept));
        x = (struct solid){x.d + 1, (h + 1) * x.v, (uint32_t)WINGED_SWEPT_CELLS(x.d, x.s, h), swept};
    }
    print_table(x);
    print_boundary(x);
    return 0;
}
