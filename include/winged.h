/* Winged solids for a host in C: read, wing, sweep, move, faces and list, and the key of a file.
 *
 * A cell of dimension d is a sign, a material (0 to 999) and d + 1 different vertex numbers. A table holds, per cell,
 * its sign, its material, its ascending vertices, and its wings: the numbers of its neighbours, wing i across the face
 * that lacks vertex i. Wings leave materials out: a face between two materials is no boundary. A swept cell and a face
 * have the material of the cell that they come from.
 *
 * All buffers are bytes holding 16-bit words, low byte first:
 *   a list cell      sign word (0 plus, 1 minus), material, d + 1 vertices in any order
 *   a table record   sign word, material, d + 1 ascending vertices, d + 1 wings (65535: none)
 *   uploaded wings   d + 1 wings, in the order in which the list cell has its vertices
 *   a face record    sign word, d ascending vertices, material
 * and floats of 64 bits (IEEE 754), by their bits, low byte first:
 *   points           v points of n axes, one after the other
 *   levels           the points at level 0 to h of a sweep, one level after the other
 *
 * A host from before version 1.4 is changed and compiled again: list cells, table records and face records have a
 * material word more (0 will do), the header of winged_read has 2 bytes more, and winged_list takes the version first.
 *
 * Each function returns the count of what was written (words, floats or bytes, as it says), or minus the number of a
 * refusal (enum winged_refusal). The first refusal that applies is returned, by number, 18 coming after 8 and 17 after
 * 13. A refused call writes nothing; an accepted one writes from the start of each output and no further. Lengths are in
 * bytes. An input must have exactly the length that the numbers say; of an output only whole words or floats count, and
 * it may be longer than needed. A buffer of length 0 may come with any pointer, NULL among them: nothing is read or
 * written through it.
 *
 * A solid may be without cells (s is 0), in every dimension, and only then without vertices (v is 0). The calls take it
 * like any other: its list and its table have length 0, and a return of 0 is a count, no refusal.
 *
 * The inputs and the outputs of a call must not overlap. A call uses no heap and no global state, so calls on
 * different buffers may run in several threads at once; winged_list and winged_key use up to 1 MB of stack, the
 * others up to 512 KB.
 */
#ifndef WINGED_H
#define WINGED_H

#include <stddef.h>
#include <stdint.h>

#ifdef __cplusplus
extern "C" {
#endif

/* Limits. A sweep has one dimension more than its solid, (h + 1) v vertices and h s (d + 1) cells. */
#define WINGED_MAX_DIMENSION 7
#define WINGED_MAX_SOURCE 6 /* dimension of what is swept */
#define WINGED_MAX_VERTICES 4096
#define WINGED_MAX_CELLS 4096
#define WINGED_MAX_STEPS 64
#define WINGED_MAX_AXES 8
#define WINGED_MAX_MATERIAL 999
#define WINGED_MAX_FILE 65536 /* bytes of a file that winged_key takes */
#define WINGED_EMPTY 65535 /* a wing without a neighbour */

/* Sizes in words. */
#define WINGED_LIST_CELL(d) ((size_t)(d) + 3)
#define WINGED_RECORD(d) (2 * (size_t)(d) + 4)
#define WINGED_WINGS(d) ((size_t)(d) + 1)
#define WINGED_FACE(d) ((size_t)(d) + 2)

/* Sizes in bytes: the list of s cells, their table, their wings in uploaded order, the table of a sweep in h steps,
 * v points of n axes, their levels in h steps, what winged_read says of a file, and room for the boundary faces of a
 * table whatever they are. */
#define WINGED_LIST_BYTES(d, s) (2 * (size_t)(s) * WINGED_LIST_CELL(d))
#define WINGED_TABLE_BYTES(d, s) (2 * (size_t)(s) * WINGED_RECORD(d))
#define WINGED_UPLOADED_BYTES(d, s) (2 * (size_t)(s) * WINGED_WINGS(d))
#define WINGED_SWEPT_CELLS(d, s, h) ((size_t)(h) * (size_t)(s) * ((size_t)(d) + 1))
#define WINGED_SWEPT_BYTES(d, s, h) WINGED_TABLE_BYTES((d) + 1, WINGED_SWEPT_CELLS(d, s, h))
#define WINGED_POINTS_BYTES(n, v) (8 * (size_t)(n) * (size_t)(v))
#define WINGED_LEVELS_BYTES(n, v, h) (((size_t)(h) + 1) * WINGED_POINTS_BYTES(n, v))
#define WINGED_HEADER_BYTES 42
#define WINGED_FACES_BYTES(d, s) (2 * (size_t)(s) * ((size_t)(d) + 1) * WINGED_FACE(d))

enum winged_refusal {
    WINGED_NOT_OURS = 1,         /* read: under 40 bytes, or mark or version wrong */
    WINGED_OUTSIDE_LIMITS = 2,   /* a number is outside its limits, or there are cells and no vertices */
    WINGED_WRONG_LENGTH = 3,     /* an input's length is not what the numbers say */
    WINGED_FLOAT_RANGE = 4,      /* read, move, list: a float is not finite, or of magnitude 1,048,576 or above */
    WINGED_STEP_UNFIT = 5,       /* read, move: the step does not fit its space, or an unused part is not 0 */
    WINGED_BAD_SIGN = 6,         /* read, wing: a sign is neither plus nor minus */
    WINGED_BAD_VERTEX = 7,       /* read, wing: a vertex is v or above */
    WINGED_VERTEX_TWICE = 8,     /* read, wing: a cell has a vertex twice */
    WINGED_CELL_TWICE = 9,       /* wing: two cells are on the same vertices */
    WINGED_CROWDED_FACE = 10,    /* wing: a face is in three or more cells */
    WINGED_EQUAL_SIGNS = 11,     /* wing: two cells share a face with equal signs */
    WINGED_SWEPT_TOO_LARGE = 12, /* sweep, move: over 4,096 vertices or cells */
    WINGED_MOVED_OUT = 13,       /* move: a moved coordinate leaves the range */
    WINGED_UNSOUND = 14,         /* sweep, faces, list: the table is not that of its own cells, or has a material above 999 */
    WINGED_NO_ROOM = 15,         /* an output is shorter than the answer */
    WINGED_STAYS_IN_PLANE = 17,  /* move: the step does not leave the plane of the points; tried after 13 and before 15 */
    WINGED_BAD_MATERIAL = 18     /* read, wing: a material is above 999; tried after 8 and before 9 */
};

/* Kinds of step: a slide adds an amount on one axis, a slant on two axes, a turn rotates the first two axes and
 * rises on the last. */
#define WINGED_SLIDE 1
#define WINGED_SLANT 2
#define WINGED_TURN 3

/* What a file says. cells gets its list cells (the count of their words is returned), points its points, and header
 * 42 bytes: eight words d, n, v, s, h, kind, axis, other, then three floats a, b, c, as winged_move takes them, then the
 * file's version as a word, 1 or 2, as winged_list takes it. The cells of a file of version 1 have material 0. */
int64_t winged_read(const uint8_t *file, size_t file_len, uint8_t *header, size_t header_len, uint8_t *cells,
                    size_t cells_len, uint8_t *points, size_t points_len);

/* table gets the table of a list of s cells of dimension d (0 to 7) on v vertices (the count of its words is returned).
 * uploaded gets the wings of each cell in the order in which its vertices stand in the list: wing j is the neighbour at
 * the face that lacks the vertex at place j there. So where the list has +(2 0 1) and the table +(0 1 2) with the wings
 * 2 3 1, uploaded has 1 2 3. A host that called winged_wing before version 1.3, which had no such buffer, lends
 * WINGED_UPLOADED_BYTES(d, s) bytes for it, and must be compiled again. */
int64_t winged_wing(uint32_t d, uint32_t v, uint32_t s, const uint8_t *cells, size_t cells_len, uint8_t *table,
                    size_t table_len, uint8_t *uploaded, size_t uploaded_len);

/* The table of the sweep of a table of dimension d (0 to 6) in h steps. Vertex x at level i is x + i v. */
int64_t winged_sweep(uint32_t d, uint32_t v, uint32_t s, uint32_t h, const uint8_t *table, size_t table_len,
                     uint8_t *swept, size_t swept_len);

/* The points of levels 0 to h: v points of n axes (1 to 8), moved h times by a step. a, b and c are floats by their
 * bits: a slide's amount on axis; a slant's amounts on axis and other; a turn's cosine, sine and rise. What a kind
 * leaves unused is to be 0. The step must leave the plane of the points: on one axis that a slide or slant moves, or on
 * the last for a turn, all v points must have one value (-0 equals 0), which rises at every step, or falls at every step.
 * Returns the count of floats. */
int64_t winged_move(uint32_t n, uint32_t v, uint32_t h, uint32_t kind, uint32_t axis, uint32_t other, uint64_t a,
                    uint64_t b, uint64_t c, const uint8_t *points, size_t points_len, uint8_t *levels,
                    size_t levels_len);

/* One record for each empty wing of a table, by cell and then position. In dimension 0 there is none. */
int64_t winged_faces(uint32_t d, uint32_t v, uint32_t s, const uint8_t *table, size_t table_len, uint8_t *faces,
                     size_t faces_len);

/* The key's text of a table of dimension d (0 to 7) and v points of n axes: three decimals, of two equally near
 * thousandths the even one. In version 2 the line of a face ends with its material; version 1 leaves materials out, and
 * another version is refused as a number outside its limits. Returns the count of bytes. */
int64_t winged_list(uint32_t version, uint32_t d, uint32_t n, uint32_t v, uint32_t s, const uint8_t *table,
                    size_t table_len, const uint8_t *points, size_t points_len, uint8_t *text, size_t text_len);

/* What the program key prints for a file: its key, in the form of the file's version, or the line 'refused' with a
 * number. Returns the count of bytes; the only refusal is that of a text_len that is too small. 65,536 bytes are always
 * enough. */
int64_t winged_key(const uint8_t *file, size_t file_len, uint8_t *text, size_t text_len);

#ifdef __cplusplus
}
#endif

#endif
