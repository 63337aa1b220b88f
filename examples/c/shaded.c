/* A shaded triangle: each vertex has its depth and its colour, and the engine
 * works out the four planes through them. The drawing is printed a character a
 * pixel, the brighter the fuller.
 *
 *     tools/library
 *     gcc -Iinclude examples/c/shaded.c target/staticlib/libmerikohin.a -o target/shaded
 *     target/shaded
 */
#include "merikohin.h"

#include <stdio.h>

enum { WIDTH = 64, HEIGHT = 20 };

/* A vertex: its place in eighths of a pixel, its depth (0 the nearest, up to
 * 32767) and its colour (red and blue up to 31, green up to 63). */
struct vertex {
    int32_t x, y, depth, red, green, blue;
};

/* Says what was refused; the program's status is 1. */
static int refused(uint32_t number)
{
    fprintf(stderr, "%u: %s\n", number, merikohin_says(number));
    return 1;
}

/* Makes a triangle of three vertices, by a call for each of its planes. Answers
 * 0, or the number of the call that was refused. */
static uint32_t through(const struct vertex v[3], merikohin_triangle *t)
{
    const merikohin_values values[4] = {
        {v[0].depth, v[1].depth, v[2].depth},
        {v[0].red, v[1].red, v[2].red},
        {v[0].green, v[1].green, v[2].green},
        {v[0].blue, v[1].blue, v[2].blue},
    };
    merikohin_plane *const planes[4] = {&t->depth, &t->red, &t->green, &t->blue};

    t->vertices = (merikohin_vertices){v[0].x, v[0].y, v[1].x, v[1].y, v[2].x, v[2].y};
    for (int i = 0; i < 4; i++) {
        const merikohin_through answer = merikohin_plane_through(t->vertices, values[i]);
        if (answer.number != MERIKOHIN_DONE)
            return answer.number;
        *planes[i] = answer.plane;
    }
    return MERIKOHIN_DONE;
}

int main(void)
{
    static uint8_t ram[4 * WIDTH * HEIGHT];
    const merikohin_screen screen = {0, 2 * WIDTH * HEIGHT, MERIKOHIN_SIZE(WIDTH, HEIGHT)};
    uint32_t number = merikohin_clear(ram, sizeof ram, screen, 0, 65535);
    if (number != MERIKOHIN_DONE)
        return refused(number);

    /* In clockwise order, as the screen is seen. In the other order a triangle
     * covers nothing, and the call refuses it. */
    const struct vertex vertices[3] = {
        {.x = 240, .y = 4, .depth = 100, .red = 31, .green = 63, .blue = 31},
        {.x = 500, .y = 150, .depth = 300, .red = 4, .green = 9, .blue = 4},
        {.x = 12, .y = 120, .depth = 200, .red = 20, .green = 28, .blue = 10},
    };
    merikohin_triangle t;
    number = through(vertices, &t);
    if (number != MERIKOHIN_DONE)
        return refused(number);
    const merikohin_drawn drawn = merikohin_draw(ram, sizeof ram, screen, t);
    if (drawn.number != MERIKOHIN_DONE)
        return refused(drawn.number);
    fprintf(stderr, "covered %u, written %u\n", drawn.covered, drawn.written);

    /* Green has the most bits and stands for the brightness. */
    for (uint32_t y = 0; y < HEIGHT; y++) {
        const merikohin_row_part row = merikohin_row(ram, sizeof ram, screen, y);
        if (row.number != MERIKOHIN_DONE)
            return refused(row.number);
        for (uint64_t at = row.start; at < row.start + row.length; at += 2) {
            const uint32_t green = (uint32_t)(ram[at] << 8 | ram[at + 1]) >> 5 & 63;
            putchar(".:-=+*#%@"[green * 9 / 64]);
        }
        putchar('\n');
    }
    return 0;
}
