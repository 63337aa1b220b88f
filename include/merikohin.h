/* merikohin.h - the C interface of the Merikohin graphics engine.
 *
 * The engine draws triangles and waveforms on a screen that lies in memory lent
 * to it for the length of one call, and runs programs of a machine of 41
 * instructions that shares such screens. It keeps nothing between calls,
 * allocates nothing and touches no byte outside the lent memory.
 *
 * Memory. RAM is the ram_len bytes at ram, at any address. Words and half-words
 * in it are big-endian. Programs and data memory are words of this machine, in
 * its own byte order, aligned as uint32_t is, and samples likewise as int16_t.
 * Where a length is 0 the pointer may be NULL. What one call is lent does not
 * overlap. Apart from lending the memory, nothing is asked of the caller: every
 * value of every argument is allowed and gets its answer.
 *
 * Screens. A screen is a colour start, a depth start and a size number S:
 * S div 512 is the width in groups of 16 pixels (1 to 40), S mod 512 is the
 * height (1 to 480). A screen is sound when S is in that range, both starts are
 * even, each area (width x height x 2 bytes, row by row) lies within RAM and
 * the two areas do not overlap; touching is allowed. A colour is red x 2048 +
 * green x 32 + blue; a depth is an unsigned half-word, and 0 is the nearest.
 *
 * Numbers. Every call but merikohin_fresh answers a number: 0 is done, any
 * other says what was refused, and the lowest one that applies to the call
 * wins. Every number but 0 comes with counts of 0, with a plane of zeros, with
 * the state as given and with all lent memory as it was.
 *
 * Yes and no. A flag, a mark and every has_.. is 0 for no and anything else for
 * yes. An accepted run or step answers 0 or 1 in all of them, also in a tree
 * that is not there; a refused one answers what was given. Other fields without
 * meaning (a screen where there is none, a tree where there is none, depths
 * where none are held) are not looked at, and a run or a step leaves in them
 * what was there; in a fresh state, and in the depths of a tree that TREESET
 * plants, that is 0. Padding is not looked at, and an answer's padding may hold
 * anything: compare fields, not bytes.
 */
#ifndef MERIKOHIN_H
#define MERIKOHIN_H

#include <stddef.h>
#include <stdint.h>

#define MERIKOHIN_VERSION_MAJOR 0
#define MERIKOHIN_VERSION_MINOR 5
#define MERIKOHIN_VERSION_PATCH 0
#define MERIKOHIN_VERSION "0.5.0"

/* The limits. */
#define MERIKOHIN_PROGRAM_MOST 1024 /* words of a program */
#define MERIKOHIN_MEMORY_WORDS 1024 /* words of data memory, no more and no less */
#define MERIKOHIN_RAM_MOST 4194304  /* bytes of RAM */
#define MERIKOHIN_GROUP 16          /* pixels of a group, leaves of a tree */
#define MERIKOHIN_WIDTH_MOST 640    /* pixels of a row, in whole groups */
#define MERIKOHIN_HEIGHT_MOST 480   /* rows */
#define MERIKOHIN_VERTEX_LEAST (-8192)
#define MERIKOHIN_VERTEX_MOST 8191 /* eighths of a pixel */
#define MERIKOHIN_VALUE_MOST 32767 /* a value at a vertex, from 0 */
#define MERIKOHIN_REGISTERS 32
#define MERIKOHIN_SAMPLES_MOST 40960  /* samples of a recording */
#define MERIKOHIN_PER_COLUMN_MOST 64  /* samples a column, from 1 */
#define MERIKOHIN_OFFSET_LEAST (-2048)
#define MERIKOHIN_OFFSET_MOST 2047 /* samples */

/* The size number of a screen: its width a multiple of 16 from 16 to 640, its
 * height from 1 to 480. Of anything else it is 0, which no screen has and every
 * call refuses with number 5. Both arguments are evaluated more than once. */
#define MERIKOHIN_SIZE(width, height)                                            \
    ((int64_t)(width) >= MERIKOHIN_GROUP &&                                      \
             (int64_t)(width) <= MERIKOHIN_WIDTH_MOST &&                         \
             (int64_t)(width) % MERIKOHIN_GROUP == 0 &&                          \
             (int64_t)(height) >= 1 &&                                           \
             (int64_t)(height) <= MERIKOHIN_HEIGHT_MOST                          \
         ? (uint32_t)(width) / MERIKOHIN_GROUP * 512u + (uint32_t)(height)       \
         : (uint32_t)0)

/* The numbers that a call answers. merikohin_says has a sentence for each. */
enum merikohin_number {
    MERIKOHIN_DONE = 0,
    MERIKOHIN_PROGRAM_TOO_LONG = 1,
    MERIKOHIN_MEMORY_NOT_1024 = 2,
    MERIKOHIN_RAM_TOO_LONG = 3,
    MERIKOHIN_STATE_ILL_FORMED = 4,
    MERIKOHIN_SCREEN_NOT_SOUND = 5,
    MERIKOHIN_VERTEX_OUT_OF_RANGE = 6,
    MERIKOHIN_EDGE_OUT_OF_RANGE = 7,
    MERIKOHIN_ROW_OUT_OF_RANGE = 8,
    MERIKOHIN_NO_PLANE = 9,
    MERIKOHIN_NO_PANEL = 10
};

/* The halt numbers of a state. merikohin_halt_says has a sentence for each.
 * Where several apply to a step, the first in this order is given. */
enum merikohin_halt {
    MERIKOHIN_HALT_NONE = 0,
    MERIKOHIN_HALT_PLACE = 12, /* how a program ends */
    MERIKOHIN_HALT_OPCODE = 11,
    MERIKOHIN_HALT_DATA_ADDRESS = 13,
    MERIKOHIN_HALT_MOVE_DATA = 15,
    MERIKOHIN_HALT_MOVE_RAM = 16,
    MERIKOHIN_HALT_SCREEN = 17,
    MERIKOHIN_HALT_TREE = 14
};

/* The machine's instructions: the opcode is bits 31..26 of a word, r1 25..21,
 * r2 20..16, r3 15..11, imm 15..0. docs/INSTRUCTIONS.md says what each does. A
 * shift takes all of r3, unsigned, or of imm: by 32 or more LSL and LSR give 0,
 * and ASR gives 0 or -1, by the sign. tools/opcodes writes the list. */
enum merikohin_opcode {
    MERIKOHIN_LD = 0,
    MERIKOHIN_ST = 1,
    MERIKOHIN_LI = 2,
    MERIKOHIN_ADD = 3,
    MERIKOHIN_SUB = 4,
    MERIKOHIN_MUL = 5,
    MERIKOHIN_MULF = 6,
    MERIKOHIN_RECP = 7,
    MERIKOHIN_AND = 8,
    MERIKOHIN_OR = 9,
    MERIKOHIN_XOR = 10,
    MERIKOHIN_NOT = 11,
    MERIKOHIN_LSL = 12,
    MERIKOHIN_LSR = 13,
    MERIKOHIN_ASR = 14,
    MERIKOHIN_LSLI = 15,
    MERIKOHIN_LSRI = 16,
    MERIKOHIN_ASRI = 17,
    MERIKOHIN_JMP = 18,
    MERIKOHIN_CALL = 19,
    MERIKOHIN_JEQ = 20,
    MERIKOHIN_JEQL = 21,
    MERIKOHIN_JNE = 22,
    MERIKOHIN_JNEL = 23,
    MERIKOHIN_JLT = 24,
    MERIKOHIN_JLTL = 25,
    MERIKOHIN_JLE = 26,
    MERIKOHIN_JLEL = 27,
    MERIKOHIN_JGT = 28,
    MERIKOHIN_JGTL = 29,
    MERIKOHIN_JGE = 30,
    MERIKOHIN_JGEL = 31,
    MERIKOHIN_DOT = 32,
    MERIKOHIN_READ = 33,
    MERIKOHIN_WRITE = 34,
    MERIKOHIN_SCRSET = 35,
    MERIKOHIN_CLS = 36,
    MERIKOHIN_TREESET = 37,
    MERIKOHIN_TREEIN = 38,
    MERIKOHIN_TREEVAL = 39,
    MERIKOHIN_TREEPUT = 40
};

/* A refusal that nobody looks at is a mistake; the compiler says so. */
#if defined(__cplusplus) && __cplusplus >= 201703L
#define MERIKOHIN_MUST_USE [[nodiscard]]
#elif defined(__GNUC__)
#define MERIKOHIN_MUST_USE __attribute__((warn_unused_result))
#else
#define MERIKOHIN_MUST_USE
#endif

#ifdef __cplusplus
extern "C" {
#endif

/* A screen: where its colours and its depths start (bytes from the start of
 * RAM), and its size number S, which MERIKOHIN_SIZE makes. */
typedef struct merikohin_screen {
    uint32_t colour_start, depth_start, size_number;
} merikohin_screen;

/* A plane: at pixel (x, y) it has c + a*x + b*y, taken modulo 2^32. */
typedef struct merikohin_plane {
    int32_t c, a, b;
} merikohin_plane;

/* Three vertices in eighths of a pixel, x to the right, y downward. */
typedef struct merikohin_vertices {
    int32_t x1, y1, x2, y2, x3, y3;
} merikohin_vertices;

/* A triangle: its vertices, and the planes of its depth (top 16 bits), red
 * (bits 16 to 20), green (bits 16 to 21) and blue (bits 16 to 20). */
typedef struct merikohin_triangle {
    merikohin_vertices vertices;
    merikohin_plane depth, red, green, blue;
} merikohin_triangle;

/* A whole value at each of three vertices: a depth, or a part of a colour. */
typedef struct merikohin_values {
    int32_t r1, r2, r3;
} merikohin_values;

/* The answer to three vertices and a value at each: its number, and the plane
 * through the three. */
typedef struct merikohin_through {
    uint32_t number;
    merikohin_plane plane;
} merikohin_through;

/* The answer to a triangle: its number, how many pixels of the screen it
 * covered and how many of these were written. */
typedef struct merikohin_drawn {
    uint32_t number, covered, written;
} merikohin_drawn;

/* The answer to a panel: its number, and how many pixels it drew. */
typedef struct merikohin_panelled {
    uint32_t number, pixels;
} merikohin_panelled;

/* The answer to a row or a depth row: its number, and where the row's own bytes
 * lie: they are ram[start .. start + length), a part of the lent memory and no
 * copy. Four bytes of padding follow the number. */
typedef struct merikohin_row_part {
    uint32_t number;
    uint64_t start, length;
} merikohin_row_part;

/* A tree: the column and row of its first leaf, then for each of its sixteen
 * leaves the marks I (inside) and O (outside), the colour and the depth, and
 * whether the leaves hold depths. */
typedef struct merikohin_tree {
    uint32_t column, row;
    uint8_t inside[16], outside[16];
    uint16_t colour[16], depth[16];
    uint32_t has_depth;
} merikohin_tree;

/* A machine state: 32 registers (registers[0] is always 0), the place of the
 * next instruction, the flags negative and zero, the halt number (0 while
 * none), whether there is a screen and which, whether there is a tree and
 * which. A state is ill-formed exactly if registers[0] is not 0, the halt
 * number is none of 0 and 11 to 17, it has a screen that is not sound in this
 * RAM, or it has a tree and no screen, or a tree whose column is not a multiple
 * of 16 below the width or whose row is not below the height. */
typedef struct merikohin_state {
    uint32_t registers[MERIKOHIN_REGISTERS];
    uint32_t place, negative, zero, halt, has_screen;
    merikohin_screen screen;
    uint32_t has_tree;
    merikohin_tree tree;
} merikohin_state;

/* The answer to a run: its number, the steps carried out, and the state in
 * which the run stopped. Four bytes of padding follow the number. */
typedef struct merikohin_ran {
    uint32_t number;
    uint64_t steps;
    merikohin_state state;
} merikohin_ran;

/* The answer to a step: its number, 1 if it was carried out and else 0, and the
 * state after it. There is no padding. */
typedef struct merikohin_stepped {
    uint32_t number, carried_out;
    merikohin_state state;
} merikohin_stepped;

/* Clears a screen: every pixel gets the given colour and the given depth; all
 * other bytes of RAM stay as they were. Answers 0 when done, 3 if RAM is too
 * long, 5 if the screen is not sound. */
MERIKOHIN_MUST_USE
uint32_t merikohin_clear(uint8_t *ram, size_t ram_len, merikohin_screen s, uint16_t colour, uint16_t depth);

/* Draws a triangle: a pixel (x, y) of the screen is covered if the point
 * (8x + 4, 8y + 4), its centre, is inside all three edges, taken in the
 * vertices' order, and a covered pixel is written, colour and depth, if its
 * depth is at most the stored depth; all other bytes of RAM stay as they were.
 * Answers 0 with the numbers of pixels covered and written, or 3 (RAM too
 * long), 5 (screen not sound), 6 (vertex number out of range) or 7 (edge value
 * out of range) with counts of 0. A triangle turned the other way, or of no
 * area, is accepted and covers none. */
MERIKOHIN_MUST_USE
merikohin_drawn merikohin_draw(uint8_t *ram, size_t ram_len, merikohin_screen s, merikohin_triangle t);

/* Works out the plane through three values, one at each vertex of a triangle.
 * The exact value at a pixel's centre is a fraction (Cramer's rule); the plane
 * counts it in units of 1/65536. c is for pixel (0, 0), a and b are the steps
 * to the right and down; each is rounded down, then c is raised by 1119. So at
 * every pixel that the triangle covers, on any screen, the plane is above the
 * exact value, and by at most 1119 units: its top half, which is what is drawn,
 * is never below the least of the three values nor above the greatest.
 * Answers 0 and the plane, or a plane of zeros with 6 (vertex number out of
 * range), else 9 (a value outside 0 to 32767, a doubled area that is not
 * positive, as of vertices that go round anticlockwise on the screen, or c, a
 * or b outside signed 32 bits). */
MERIKOHIN_MUST_USE
merikohin_through merikohin_plane_through(merikohin_vertices v, merikohin_values r);

/* Draws a waveform panel: column x of the screen shows the samples numbered
 * x * per_column + offset to x * per_column + offset + per_column - 1 of the
 * recording, which are counted from 0, leaving out those that do not exist. A
 * column with none stays as it was. In any other the rows from that of the
 * largest sample to that of the smallest get the colour and depth 0, where v
 * stands at row (32767 - v) * height / 65536, rounded down; all other bytes of
 * RAM stay as they were, so clear first where the ground is to be clear. The
 * samples are only read, and aligned as int16_t is. Answers 0 with how many
 * pixels were drawn, or 3 (RAM too long), 5 (screen not sound) or 10 (more than
 * 40,960 samples, per_column outside 1 to 64 or offset outside -2048 to 2047)
 * with a count of 0. */
MERIKOHIN_MUST_USE
merikohin_panelled merikohin_panel(uint8_t *ram, size_t ram_len, merikohin_screen s, const int16_t *samples,
                                   size_t samples_len, int32_t per_column, int32_t offset, uint16_t colour);

/* Tells whether a row can be read: answers 0 if merikohin_row would hand the
 * row back, or 3 (RAM too long), 5 (screen not sound) or 8 (row not below the
 * height), always the number that merikohin_row and merikohin_depth_row answer
 * for the same inputs. RAM is not changed. */
MERIKOHIN_MUST_USE
uint32_t merikohin_row_check(const uint8_t *ram, size_t ram_len, merikohin_screen s, uint32_t row);

/* Reads a row: answers 0 and the part of RAM that holds the row's own
 * 2 x width colour bytes, or 3 (RAM too long), 5 (screen not sound) or 8 (row
 * not below the height) with an empty part, start 0 and length 0. RAM is not
 * changed and nothing is copied. */
MERIKOHIN_MUST_USE
merikohin_row_part merikohin_row(const uint8_t *ram, size_t ram_len, merikohin_screen s, uint32_t row);

/* Reads a row's depths: answers 0 and the part of RAM that holds the row's own
 * 2 x width depth bytes, or 3 (RAM too long), 5 (screen not sound) or 8 (row
 * not below the height) with an empty part, start 0 and length 0. RAM is not
 * changed and nothing is copied. */
MERIKOHIN_MUST_USE
merikohin_row_part merikohin_depth_row(const uint8_t *ram, size_t ram_len, merikohin_screen s, uint32_t row);

/* Gives a fresh state: place 0, registers 0, flags clear, no screen, no tree,
 * halt number 0, and 0 in every field without meaning. */
merikohin_state merikohin_fresh(void);

/* Runs a program: steps are carried out from the state given, one after the
 * other, until there have been as many as the budget says or one halts, and
 * nothing else stops a run. There is no stop instruction: a program ends by
 * running past its last word, which is halt 12. A halting step changes only the
 * halt number and is not counted; a state that is halted already runs 0 steps
 * and stays. Answers 0 with the steps carried out and the state they lead to,
 * or 1 (program too long), 2 (data memory not 1,024 words), 3 (RAM too long) or
 * 4 (state ill-formed) with no step, the state as given, field by field, and no
 * word or byte changed. The program is only read; data memory and RAM change as
 * the steps say and nowhere else. */
MERIKOHIN_MUST_USE
merikohin_ran merikohin_run(const uint32_t *program, size_t program_len, uint32_t *memory, size_t memory_len,
                            uint8_t *ram, size_t ram_len, merikohin_state state, uint64_t budget);

/* Takes one step: takes a state by value and gives one back. Answers 0 with
 * carried_out 1 and the state after the step; or 0 with carried_out 0 where the
 * step halts, which changes only the halt number, or where the state is halted
 * already, which stays; or 1, 2, 3 or 4 as merikohin_run, with carried_out 0,
 * the state as given, field by field, and no word or byte changed. Program, data
 * memory and RAM are as in merikohin_run, and a run is these steps in turn. */
MERIKOHIN_MUST_USE
merikohin_stepped merikohin_step(const uint32_t *program, size_t program_len, uint32_t *memory, size_t memory_len,
                                 uint8_t *ram, size_t ram_len, merikohin_state state);

/* What a number means, in a sentence without a full stop. */
static inline const char *merikohin_says(uint32_t number)
{
    switch (number) {
    case MERIKOHIN_DONE: return "done";
    case MERIKOHIN_PROGRAM_TOO_LONG: return "the program is longer than 1,024 words";
    case MERIKOHIN_MEMORY_NOT_1024: return "the data memory is not of 1,024 words";
    case MERIKOHIN_RAM_TOO_LONG: return "the RAM is longer than 4,194,304 bytes";
    case MERIKOHIN_STATE_ILL_FORMED: return "the machine state is ill-formed";
    case MERIKOHIN_SCREEN_NOT_SOUND: return "the screen is not sound";
    case MERIKOHIN_VERTEX_OUT_OF_RANGE: return "a vertex number is outside -8192..8191";
    case MERIKOHIN_EDGE_OUT_OF_RANGE: return "an edge value at some pixel of the screen is outside signed 32 bits";
    case MERIKOHIN_ROW_OUT_OF_RANGE: return "the row is not below the height";
    case MERIKOHIN_NO_PLANE:
        return "a value is outside 0..32767, the doubled area is not positive, or c, a or b is outside signed 32 bits";
    case MERIKOHIN_NO_PANEL:
        return "there are more than 40,960 samples, the samples a column are outside 1..64, or the offset is outside -2048..2047";
    default: return "no call answers this number";
    }
}

/* The same of a state's halt number. */
static inline const char *merikohin_halt_says(uint32_t halt)
{
    switch (halt) {
    case MERIKOHIN_HALT_NONE: return "not halted";
    case MERIKOHIN_HALT_OPCODE: return "the opcode is above 40";
    case MERIKOHIN_HALT_PLACE: return "the place is not below the program's length: the program has ended";
    case MERIKOHIN_HALT_DATA_ADDRESS: return "an LD or ST address is above 1,023, or a DOT start above 1,020";
    case MERIKOHIN_HALT_TREE:
        return "TREESET's place is refused, TREEIN, TREEVAL or TREEPUT has no tree, or TREEVAL's imm is above 3";
    case MERIKOHIN_HALT_MOVE_DATA: return "a READ or WRITE data address is above 1,008";
    case MERIKOHIN_HALT_MOVE_RAM:
        return "a READ or WRITE address is not a multiple of 4, or its 64 bytes are not all in RAM";
    case MERIKOHIN_HALT_SCREEN: return "SCRSET's screen is not sound, or CLS or TREESET has no screen";
    default: return "no step halts with this number";
    }
}

#ifdef __cplusplus
}
#endif

/* The layout that the library was compiled for. */
#if defined(__cplusplus) && __cplusplus >= 201103L
#define MERIKOHIN_ASSERT(holds) static_assert(holds, "the library has another layout");
#elif defined(__STDC_VERSION__) && __STDC_VERSION__ >= 201112L
#define MERIKOHIN_ASSERT(holds) _Static_assert(holds, "the library has another layout");
#else
#define MERIKOHIN_ASSERT(holds)
#endif
#define MERIKOHIN_HAS(type, field, at) MERIKOHIN_ASSERT(offsetof(type, field) == (at))

MERIKOHIN_ASSERT(sizeof(merikohin_screen) == 12)
MERIKOHIN_HAS(merikohin_screen, colour_start, 0)
MERIKOHIN_HAS(merikohin_screen, depth_start, 4)
MERIKOHIN_HAS(merikohin_screen, size_number, 8)
MERIKOHIN_ASSERT(sizeof(merikohin_plane) == 12)
MERIKOHIN_HAS(merikohin_plane, c, 0)
MERIKOHIN_HAS(merikohin_plane, a, 4)
MERIKOHIN_HAS(merikohin_plane, b, 8)
MERIKOHIN_ASSERT(sizeof(merikohin_vertices) == 24)
MERIKOHIN_HAS(merikohin_vertices, x1, 0)
MERIKOHIN_HAS(merikohin_vertices, y1, 4)
MERIKOHIN_HAS(merikohin_vertices, x2, 8)
MERIKOHIN_HAS(merikohin_vertices, y2, 12)
MERIKOHIN_HAS(merikohin_vertices, x3, 16)
MERIKOHIN_HAS(merikohin_vertices, y3, 20)
MERIKOHIN_ASSERT(sizeof(merikohin_triangle) == 72)
MERIKOHIN_HAS(merikohin_triangle, vertices, 0)
MERIKOHIN_HAS(merikohin_triangle, depth, 24)
MERIKOHIN_HAS(merikohin_triangle, red, 36)
MERIKOHIN_HAS(merikohin_triangle, green, 48)
MERIKOHIN_HAS(merikohin_triangle, blue, 60)
MERIKOHIN_ASSERT(sizeof(merikohin_values) == 12)
MERIKOHIN_HAS(merikohin_values, r1, 0)
MERIKOHIN_HAS(merikohin_values, r2, 4)
MERIKOHIN_HAS(merikohin_values, r3, 8)
MERIKOHIN_ASSERT(sizeof(merikohin_through) == 16)
MERIKOHIN_HAS(merikohin_through, number, 0)
MERIKOHIN_HAS(merikohin_through, plane, 4)
MERIKOHIN_ASSERT(sizeof(merikohin_drawn) == 12)
MERIKOHIN_HAS(merikohin_drawn, number, 0)
MERIKOHIN_HAS(merikohin_drawn, covered, 4)
MERIKOHIN_HAS(merikohin_drawn, written, 8)
MERIKOHIN_ASSERT(sizeof(merikohin_panelled) == 8)
MERIKOHIN_HAS(merikohin_panelled, number, 0)
MERIKOHIN_HAS(merikohin_panelled, pixels, 4)
MERIKOHIN_ASSERT(sizeof(merikohin_row_part) == 24)
MERIKOHIN_HAS(merikohin_row_part, number, 0)
MERIKOHIN_HAS(merikohin_row_part, start, 8)
MERIKOHIN_HAS(merikohin_row_part, length, 16)
MERIKOHIN_ASSERT(sizeof(merikohin_tree) == 108)
MERIKOHIN_HAS(merikohin_tree, column, 0)
MERIKOHIN_HAS(merikohin_tree, row, 4)
MERIKOHIN_HAS(merikohin_tree, inside, 8)
MERIKOHIN_HAS(merikohin_tree, outside, 24)
MERIKOHIN_HAS(merikohin_tree, colour, 40)
MERIKOHIN_HAS(merikohin_tree, depth, 72)
MERIKOHIN_HAS(merikohin_tree, has_depth, 104)
MERIKOHIN_ASSERT(sizeof(merikohin_state) == 272)
MERIKOHIN_HAS(merikohin_state, registers, 0)
MERIKOHIN_HAS(merikohin_state, place, 128)
MERIKOHIN_HAS(merikohin_state, negative, 132)
MERIKOHIN_HAS(merikohin_state, zero, 136)
MERIKOHIN_HAS(merikohin_state, halt, 140)
MERIKOHIN_HAS(merikohin_state, has_screen, 144)
MERIKOHIN_HAS(merikohin_state, screen, 148)
MERIKOHIN_HAS(merikohin_state, has_tree, 160)
MERIKOHIN_HAS(merikohin_state, tree, 164)
MERIKOHIN_ASSERT(sizeof(merikohin_ran) == 288)
MERIKOHIN_HAS(merikohin_ran, number, 0)
MERIKOHIN_HAS(merikohin_ran, steps, 8)
MERIKOHIN_HAS(merikohin_ran, state, 16)
MERIKOHIN_ASSERT(sizeof(merikohin_stepped) == 280)
MERIKOHIN_HAS(merikohin_stepped, number, 0)
MERIKOHIN_HAS(merikohin_stepped, carried_out, 4)
MERIKOHIN_HAS(merikohin_stepped, state, 8)

#undef MERIKOHIN_HAS
#undef MERIKOHIN_ASSERT
#undef MERIKOHIN_MUST_USE

#endif
