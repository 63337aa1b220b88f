/* The benchmark of drawing: the same triangles, from a fixed seed, drawn by the
 * engine and by the C baselines, whose RAMs and counts must end equal. */
#include "harness.h"
#include "merikohin.h"
#include "sample.h"

#include <math.h>

typedef merikohin_drawn draw_call(uint8_t *, size_t, merikohin_screen, merikohin_triangle);
typedef uint32_t clear_call(uint8_t *, size_t, merikohin_screen, uint16_t, uint16_t);

draw_call gcc_per_pixel, gcc_stepped, clang_per_pixel, clang_stepped;
clear_call gcc_clear, clang_clear;

const struct named subjects[] = {
    {"engine", "engine"},
    {"gcc-per-pixel", "C per pixel, gcc"},
#ifdef WITH_CLANG
    {"clang-per-pixel", "C per pixel, clang"},
#endif
    {"gcc-stepped", "C stepped, gcc"},
#ifdef WITH_CLANG
    {"clang-stepped", "C stepped, clang"},
#endif
};
static const struct drawer {
    draw_call *draw;
    clear_call *clear;
} drawers[] = {
    {merikohin_draw, merikohin_clear},
    {gcc_per_pixel, gcc_clear},
#ifdef WITH_CLANG
    {clang_per_pixel, clang_clear},
#endif
    {gcc_stepped, gcc_clear},
#ifdef WITH_CLANG
    {clang_stepped, clang_clear},
#endif
};
enum { DRAWERS = sizeof drawers / sizeof drawers[0], WIDTH = 640, HEIGHT = 480, MOST = 4000, SLIVER_RISE = 89 };
const int subject_count = DRAWERS;

const struct named workloads[] = {
    {"small", "50-pixel triangles"},
    {"middle", "1,000-pixel triangles"},
    {"full", "full-screen triangles"},
    {"slivers", "slivers 600 long, 1 high"},
    {"small_any", "50-pixel triangles, any shape"},
    {"small_box20", "50-pixel triangles, box at most 20 times"},
    {"small_box14", "50-pixel triangles, box at most 14 times"},
    {"small_box8", "50-pixel triangles, box at most 8 times"},
    {"small_stout", "50-pixel triangles, not thin"},
    {"middle_stout", "1,000-pixel triangles, not thin"},
    {"clear", "clear"},
    {"on16x16", "one 50-pixel triangle on 16 by 16"},
    {"on64x64", "one 50-pixel triangle on 64 by 64"},
    {"on320x240", "one 50-pixel triangle on 320 by 240"},
    {"on640x480", "one 50-pixel triangle on 640 by 480"},
};
const int workload_count = sizeof workloads / sizeof workloads[0];

static merikohin_triangle triangles[MOST];
static size_t count;
static merikohin_screen screen;
static size_t ram_len;
static size_t clears;

static void set_screen(uint32_t width, uint32_t height)
{
    screen.colour_start = 0;
    screen.depth_start = width * height * 2;
    screen.size_number = MERIKOHIN_SIZE(width, height);
    ram_len = (size_t)screen.depth_start * 2;
}

static int64_t twice_area(const merikohin_vertices *v)
{
    return (int64_t)(v->x2 - v->x1) * (v->y3 - v->y1) - (int64_t)(v->x3 - v->x1) * (v->y2 - v->y1);
}

/* Vertices in the order that covers pixels; planes with a depth somewhere in
 * the middle and gentle slopes. */
static void add(int32_t x1, int32_t y1, int32_t x2, int32_t y2, int32_t x3, int32_t y3)
{
    merikohin_triangle t = {.vertices = {x1, y1, x2, y2, x3, y3}};
    if (twice_area(&t.vertices) < 0)
        t.vertices = (merikohin_vertices){x1, y1, x3, y3, x2, y2};
    merikohin_plane *planes[4] = {&t.depth, &t.red, &t.green, &t.blue};
    for (int k = 0; k < 4; k++) {
        planes[k]->c = between(0x10000000, 0x60000000);
        planes[k]->a = between(-0x8000, 0x8000);
        planes[k]->b = between(-0x8000, 0x8000);
    }
    if (count == MOST)
        exit(3);
    triangles[count++] = t;
}

/* Triangles of about this many pixels that are not thin: the box has at most
 * four times the triangle's pixels. */
static void add_stout(int32_t pixels)
{
    int32_t reach = (int32_t)(8 * sqrt(4.0 * pixels));
    for (;;) {
        int32_t x = between(0, 8 * (WIDTH - 1) - reach), y = between(0, 8 * (HEIGHT - 1) - reach);
        merikohin_vertices v;
        v.x1 = x + between(0, reach), v.y1 = y + between(0, reach);
        v.x2 = x + between(0, reach), v.y2 = y + between(0, reach);
        v.x3 = x + between(0, reach), v.y3 = y + between(0, reach);
        double area = (double)llabs(twice_area(&v)) / 128;
        int32_t w = abs(v.x1 - v.x2), h = abs(v.y1 - v.y2);
        w = w > abs(v.x2 - v.x3) ? w : abs(v.x2 - v.x3);
        w = w > abs(v.x3 - v.x1) ? w : abs(v.x3 - v.x1);
        h = h > abs(v.y2 - v.y3) ? h : abs(v.y2 - v.y3);
        h = h > abs(v.y3 - v.y1) ? h : abs(v.y3 - v.y1);
        if (area >= 0.95 * pixels && area <= 1.05 * pixels && (double)w * h / 64 <= 4 * area) {
            add(v.x1, v.y1, v.x2, v.y2, v.x3, v.y3);
            return;
        }
    }
}

/* Triangles of this many pixels: three points of a square, scaled. Their box
 * has at most `most` times their pixels; of any shape where `most` is 0. */
static void add_of_shape(int32_t pixels, double most)
{
    enum { SIDE = 1 << 20 };
    for (;;) {
        double p[6], scale;
        for (int k = 0; k < 6; k++)
            p[k] = between(0, SIDE);
        scale = 8 * sqrt(2.0 * pixels / fabs((p[2] - p[0]) * (p[5] - p[1]) - (p[4] - p[0]) * (p[3] - p[1])));
        if (!(scale * SIDE < 8 * (HEIGHT - 1)))
            continue;
        double left = fmin(p[0], fmin(p[2], p[4])), right = fmax(p[0], fmax(p[2], p[4]));
        double top = fmin(p[1], fmin(p[3], p[5])), bottom = fmax(p[1], fmax(p[3], p[5]));
        if (most != 0 && (right - left) * (bottom - top) * scale * scale / 64 > most * pixels)
            continue;
        int32_t reach = (int32_t)(scale * SIDE);
        int32_t x = between(0, 8 * (WIDTH - 1) - reach), y = between(0, 8 * (HEIGHT - 1) - reach), v[6];
        for (int k = 0; k < 6; k++)
            v[k] = (k % 2 ? y : x) + (int32_t)lround(p[k] * scale);
        add(v[0], v[1], v[2], v[3], v[4], v[5]);
        return;
    }
}

/* 600 pixels long, one pixel high at one end; over its length it falls by
 * this many eighths of a pixel. */
static void add_sliver(int32_t rise)
{
    int32_t x = between(0, 8 * (WIDTH - 1 - 600));
    int32_t y = rise < 0 ? between(-rise, 8 * (HEIGHT - 2)) : between(0, 8 * (HEIGHT - 2) - rise);
    if (next() % 2)
        add(x, y, x, y + 8, x + 4800, y + rise);
    else
        add(x + 4800, y + rise, x + 4800, y + rise + 8, x, y);
}

static struct outcome {
    uint8_t *ram;
    uint64_t covered, written;
} outcomes[DRAWERS];

/* Workloads of triangles of one size: so many, of so many pixels, whose box has
 * at most so many times their pixels; 0 for any shape, -1 for not thin. */
static const struct sized {
    const char *name;
    int32_t triangles, pixels, most;
} sizes[] = {
    {"small", 2000, 50, 32},
    {"small_any", 2000, 50, 0},
    {"small_box20", 2000, 50, 20},
    {"small_box14", 2000, 50, 14},
    {"small_box8", 2000, 50, 8},
    {"small_stout", 2000, 50, -1},
    {"middle", 200, 1000, 0},
    {"middle_stout", 200, 1000, -1},
};

static int add_sized(const char *name)
{
    for (size_t k = 0; k < sizeof sizes / sizeof sizes[0]; k++) {
        const struct sized *s = &sizes[k];
        if (strcmp(name, s->name))
            continue;
        for (int32_t n = 0; n < s->triangles; n++)
            if (s->most < 0)
                add_stout(s->pixels);
            else
                add_of_shape(s->pixels, s->most);
        return 1;
    }
    return 0;
}

static void add_other(const char *name)
{
    if (!strcmp(name, "full")) {
        /* The two halves of the screen, both ways of cutting it. */
        int32_t r = 8 * WIDTH, b = 8 * HEIGHT;
        add(0, 0, r, 0, 0, b);
        add(r, b, 0, b, r, 0);
        add(0, 0, r, 0, r, b);
        add(0, 0, r, b, 0, b);
        /* Later ones nearer, so that all are written. */
        for (size_t k = 0; k < count; k++)
            triangles[k].depth.c = 0x60000000 - (int32_t)k * 0x10000000;
    } else if (!strcmp(name, "slivers")) {
        /* Every slope from SLIVER_RISE pixels up to SLIVER_RISE pixels down. */
        for (int k = -30; k <= 30; k++)
            add_sliver(8 * SLIVER_RISE * k / 30);
    } else if (!strcmp(name, "clear")) {
        clears = 4;
    } else {
        unsigned width, height;
        if (sscanf(name, "on%ux%u", &width, &height) != 2) {
            fprintf(stderr, "no such workload: %s\n", name);
            exit(2);
        }
        /* One and the same triangle, 200 times. Its vertices are counted from pixel
         * (0, 0)'s sample point, so that it has 50 pixels wherever that point is. */
        enum { FROM = SAMPLE_OFFSET };
        set_screen(width, height);
        for (int k = 0; k < 200; k++) {
            add(FROM + 3, FROM + 5, FROM + 85, FROM + 22, FROM + 30, FROM + 88);
            triangles[k] = triangles[0];
        }
    }
}

void prepare(const char *name)
{
    set_screen(WIDTH, HEIGHT);
    if (!add_sized(name))
        add_other(name);
    for (int k = 0; k < DRAWERS; k++)
        outcomes[k].ram = room(ram_len);
}

void first_state(int subject)
{
    size_t half = ram_len / 2;
    memset(outcomes[subject].ram, 0, half);
    memset(outcomes[subject].ram + half, 255, half);
}

void measured(int subject)
{
    const struct drawer *d = &drawers[subject];
    uint8_t *ram = outcomes[subject].ram;
    uint64_t c = 0, w = 0;
    for (size_t k = 0; k < count; k++) {
        merikohin_drawn drawn = d->draw(ram, ram_len, screen, triangles[k]);
        c += drawn.covered;
        w += drawn.written;
    }
    for (size_t k = 0; k < clears; k++) {
        d->clear(ram, ram_len, screen, (uint16_t)(0x1234 + k), (uint16_t)(0xfedc - k));
        c += ram_len / 4;
        w += ram_len / 4;
    }
    outcomes[subject].covered = c;
    outcomes[subject].written = w;
}

void must_agree(const char *workload)
{
    const struct outcome *a = &outcomes[0];
    for (int k = 1; k < DRAWERS; k++) {
        const struct outcome *b = &outcomes[k];
        if (memcmp(a->ram, b->ram, ram_len) != 0 || a->covered != b->covered || a->written != b->written) {
            fprintf(stderr, "%s: %s and %s disagree\n", workload, subjects[0].words, subjects[k].words);
            exit(1);
        }
    }
}

void print_counts(void)
{
    printf("%zu %" PRIu64 " %" PRIu64 "\n", count + clears, outcomes[0].covered, outcomes[0].written);
}
