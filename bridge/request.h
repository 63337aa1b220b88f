/* What the two sides of the bridge share: one file mapped by both. A call's
 * arguments and answer stand at its start, then come the program, or a panel's
 * samples, and the data memory; the RAM ends where the file ends, so a touch
 * beyond it is a fault. */
#ifndef REQUEST_H
#define REQUEST_H

#include "merikohin.h"

enum { CLEAR, DRAW, PLANE_THROUGH, PANEL, ROW_CHECK, ROW, DEPTH_ROW, FRESH, RUN, STEP };

struct request {
    uint64_t program_len, samples_len, memory_len, ram_len, budget;
    merikohin_screen screen;
    merikohin_triangle triangle;
    merikohin_vertices vertices;
    merikohin_values values;
    merikohin_state state;
    uint32_t call, row;
    int32_t per_column, offset;
    uint16_t colour, depth;
    uint32_t number;
    merikohin_drawn drawn;
    merikohin_through through;
    merikohin_panelled panelled;
    merikohin_row_part part;
    merikohin_ran ran;
    merikohin_stepped stepped;
};

/* Where things stand in the file, in bytes. */
enum { PROGRAM = 4096, SAMPLES = PROGRAM, MEMORY = 1 << 22, WORDS_END = 1 << 23, AREA = 1 << 26 };

_Static_assert(sizeof(struct request) <= PROGRAM, "the request has its own page");

/* The descriptors of the far side: the file, where requests come from, where
 * answers go. */
enum { FILE_FD = 3, ASKED_FD = 4, ANSWERED_FD = 5 };

#endif
