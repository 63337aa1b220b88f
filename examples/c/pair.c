/* A first program over the engine: it clears a small screen, draws the pair of
 * triangles that share an edge and prints each pixel's colour as a digit.
 *
 *     tools/library
 *     gcc -Iinclude examples/c/pair.c target/staticlib/libmerikohin.a -o target/pair
 *     target/pair
 */
#include "merikohin.h"

#include <stdio.h>

/* Says what was refused; the program's status is 1. */
static int refused(uint32_t number)
{
    fprintf(stderr, "%u: %s\n", number, merikohin_says(number));
    return 1;
}

int main(void)
{
    /* The engine has no memory of its own. Lend it any bytes, at every call. */
    static uint8_t ram[256];

    /* A screen of 16 by 4 pixels in them. A pixel has two bytes of colour and
     * two of depth, so the colours fill 128 bytes and the depths the rest. */
    const merikohin_screen screen = {.colour_start = 0, .depth_start = 128, .size_number = MERIKOHIN_SIZE(16, 4)};

    /* Every pixel gets colour 0 and the farthest depth. The answer is a
     * number; 0 is "done", and any other says what was refused. */
    const uint32_t number = merikohin_clear(ram, sizeof ram, screen, 0, 65535);
    if (number != MERIKOHIN_DONE)
        return refused(number);

    /* Vertices are in eighths of a pixel: 32 is four pixels. A triangle covers
     * the pixels whose centre is inside it. A plane has c + a*x + b*y at pixel
     * (x, y), and blue is its bits 16 to 20. Planes that are left out are 0
     * everywhere: no red, no green, nearest depth. */
    const merikohin_triangle pair[2] = {
        {.vertices = {.x1 = 0, .y1 = 0, .x2 = 32, .y2 = 0, .x3 = 0, .y3 = 32}, .blue = {.c = 1 << 16}},
        {.vertices = {.x1 = 32, .y1 = 32, .x2 = 0, .y2 = 32, .x3 = 32, .y3 = 0}, .blue = {.c = 2 << 16}},
    };
    for (int i = 0; i < 2; i++) {
        const merikohin_drawn drawn = merikohin_draw(ram, sizeof ram, screen, pair[i]);
        if (drawn.number != MERIKOHIN_DONE)
            return refused(drawn.number);
        fprintf(stderr, "covered %u, written %u\n", drawn.covered, drawn.written);
    }

    /* A row is a part of the lent bytes, given as its start and its length.
     * Half-words are big-endian: the second byte of a colour is its low one. */
    for (uint32_t y = 0; y < 4; y++) {
        const merikohin_row_part row = merikohin_row(ram, sizeof ram, screen, y);
        if (row.number != MERIKOHIN_DONE)
            return refused(row.number);
        for (uint64_t at = row.start; at < row.start + row.length; at += 2)
            putchar('0' + ram[at + 1]);
        putchar('\n');
    }
    return 0;
}
