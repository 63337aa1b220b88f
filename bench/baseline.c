/* The C baselines of drawing, of planes and of panels: the engine's rules,
 * written the usual way. The triangle's bounding box is clipped to the screen and
 * each pixel of it is tested by three edge values. There are two: "per pixel"
 * works these out anew at each pixel, as the rules state them and in 64 bits,
 * where no bound on them need be known; "stepped" keeps them up by addition, in
 * 32 bits. They differ in nothing else. Planes are worked out in one way. A
 * panel's bars are drawn in two: as the engine's two triangles, each by
 * "stepped", and by a plain fill of their pixels. */
#include "baseline.h"
#include "sample.h"

static int out_of_range(int32_t v)
{
    return v < MERIKOHIN_VERTEX_LEAST || v > MERIKOHIN_VERTEX_MOST;
}

static int32_t least(int32_t a, int32_t b)
{
    return a < b ? a : b;
}

static int32_t most(int32_t a, int32_t b)
{
    return a > b ? a : b;
}

/* The sample point of a column or a row, in eighths. */
static int32_t sample(int32_t place)
{
    return 8 * place + SAMPLE_OFFSET;
}

/* The first column or row whose sample point is not before this eighth, and the
 * last whose is not beyond it. The shifts round down. */
static int32_t first_from(int32_t eighth)
{
    return (eighth - SAMPLE_OFFSET + 7) >> 3;
}

static int32_t last_up_to(int32_t eighth)
{
    return (eighth - SAMPLE_OFFSET) >> 3;
}

/* First and last pixel to be tested in each direction, and the screen's width. */
struct box {
    int32_t left, right, top, bottom, width;
};

static int some_out_of_range(const merikohin_vertices *v)
{
    return out_of_range(v->x1) || out_of_range(v->y1) || out_of_range(v->x2) || out_of_range(v->y2) ||
           out_of_range(v->x3) || out_of_range(v->y3);
}

/* The call's number; the box where it is 0. */
static uint32_t look(size_t ram_len, merikohin_screen s, const merikohin_vertices *v, struct box *box)
{
    if (ram_len > MERIKOHIN_RAM_MOST)
        return 3;
    if (!sound(ram_len, s))
        return 5;
    if (some_out_of_range(v))
        return 6;
    box->width = (int32_t)(s.size_number / 512) * 16;
    box->left = most(0, first_from(least(v->x1, least(v->x2, v->x3))));
    box->right = least(box->width - 1, last_up_to(most(v->x1, most(v->x2, v->x3))));
    box->top = most(0, first_from(least(v->y1, least(v->y2, v->y3))));
    box->bottom = least((int32_t)(s.size_number % 512) - 1, last_up_to(most(v->y1, most(v->y2, v->y3))));
    return 0;
}

static uint32_t plane_at(merikohin_plane p, uint32_t x, uint32_t y)
{
    return (uint32_t)p.c + (uint32_t)p.a * x + (uint32_t)p.b * y;
}

/* A covered pixel in its row of colours and of depths. */
static void cover(const merikohin_triangle *t, uint8_t *colours, uint8_t *depths, int32_t x, int32_t y, merikohin_drawn *answer)
{
    uint32_t px = (uint32_t)x, py = (uint32_t)y;
    uint16_t depth = (uint16_t)(plane_at(t->depth, px, py) >> 16);
    answer->covered++;
    if (depth > get_half(depths + 2 * x))
        return;
    answer->written++;
    uint32_t red = plane_at(t->red, px, py) >> 16 & 31;
    uint32_t green = plane_at(t->green, px, py) >> 16 & 63;
    uint32_t blue = plane_at(t->blue, px, py) >> 16 & 31;
    put_half(depths + 2 * x, depth);
    put_half(colours + 2 * x, (uint16_t)(red << 11 | green << 5 | blue));
}

static int inside(int32_t x1, int32_t y1, int32_t x2, int32_t y2, int32_t px, int32_t py)
{
    int64_t dx = x2 - x1, dy = y2 - y1;
    int64_t value = (py - y1) * dx - (px - x1) * dy;
    return value > 0 || (value == 0 && (dy < 0 || (dy == 0 && dx > 0)));
}

merikohin_drawn NAME(per_pixel)(uint8_t *ram, size_t ram_len, merikohin_screen s, merikohin_triangle t)
{
    const merikohin_vertices *v = &t.vertices;
    struct box box;
    merikohin_drawn answer = {look(ram_len, s, v, &box), 0, 0};
    if (answer.number != 0)
        return answer;
    for (int32_t y = box.top; y <= box.bottom; y++) {
        uint8_t *colours = ram + s.colour_start + (size_t)y * (size_t)box.width * 2;
        uint8_t *depths = ram + s.depth_start + (size_t)y * (size_t)box.width * 2;
        for (int32_t x = box.left; x <= box.right; x++) {
            int32_t px = sample(x), py = sample(y);
            if (inside(v->x1, v->y1, v->x2, v->y2, px, py) && inside(v->x2, v->y2, v->x3, v->y3, px, py) &&
                inside(v->x3, v->y3, v->x1, v->y1, px, py))
                cover(&t, colours, depths, x, y, &answer);
        }
    }
    return answer;
}

/* One edge: its value at the box's first pixel, less 1 where zero is outside,
 * and what one pixel to the right and one row down add to it. */
struct edge {
    int32_t value, right, down;
};

static struct edge edge_at(int32_t x1, int32_t y1, int32_t x2, int32_t y2, int32_t px, int32_t py)
{
    int32_t dx = x2 - x1, dy = y2 - y1;
    int zero_inside = dy < 0 || (dy == 0 && dx > 0);
    struct edge e;
    e.value = (py - y1) * dx - (px - x1) * dy - (zero_inside ? 0 : 1);
    e.right = -8 * dy;
    e.down = 8 * dx;
    return e;
}

merikohin_drawn NAME(stepped)(uint8_t *ram, size_t ram_len, merikohin_screen s, merikohin_triangle t)
{
    const merikohin_vertices *v = &t.vertices;
    struct box box;
    merikohin_drawn answer = {look(ram_len, s, v, &box), 0, 0};
    if (answer.number != 0)
        return answer;
    int32_t px = sample(box.left), py = sample(box.top);
    struct edge a = edge_at(v->x1, v->y1, v->x2, v->y2, px, py);
    struct edge b = edge_at(v->x2, v->y2, v->x3, v->y3, px, py);
    struct edge c = edge_at(v->x3, v->y3, v->x1, v->y1, px, py);
    for (int32_t y = box.top; y <= box.bottom; y++) {
        int32_t ea = a.value, eb = b.value, ec = c.value;
        uint8_t *colours = ram + s.colour_start + (size_t)y * (size_t)box.width * 2;
        uint8_t *depths = ram + s.depth_start + (size_t)y * (size_t)box.width * 2;
        for (int32_t x = box.left; x <= box.right; x++) {
            if (ea >= 0 && eb >= 0 && ec >= 0)
                cover(&t, colours, depths, x, y, &answer);
            ea += a.right;
            eb += b.right;
            ec += c.right;
        }
        a.value += a.down;
        b.value += b.down;
        c.value += c.down;
    }
    return answer;
}

uint32_t NAME(clear)(uint8_t *ram, size_t ram_len, merikohin_screen s, uint16_t colour, uint16_t depth)
{
    if (ram_len > MERIKOHIN_RAM_MOST)
        return 3;
    if (!sound(ram_len, s))
        return 5;
    fill_screen(ram, s, colour, depth);
    return 0;
}

static int no_value(int32_t r)
{
    return r < 0 || r > MERIKOHIN_VALUE_MOST;
}

/* The quotient by a divisor above 0, rounded down. */
static int64_t quotient(int64_t n, int64_t d)
{
    int64_t q = n / d;
    return n % d < 0 ? q - 1 : q;
}

static int fits(int64_t n)
{
    return n >= INT32_MIN && n <= INT32_MAX;
}

merikohin_through NAME(plane_through)(merikohin_vertices v, merikohin_values r)
{
    enum { RAISE = 1119 };
    if (some_out_of_range(&v))
        return (merikohin_through){6, {0, 0, 0}};
    if (no_value(r.r1) || no_value(r.r2) || no_value(r.r3))
        return (merikohin_through){9, {0, 0, 0}};
    /* Counted from the first vertex and its value, areas and steps fit 32 bits. */
    int32_t x2 = v.x2 - v.x1, y2 = v.y2 - v.y1, x3 = v.x3 - v.x1, y3 = v.y3 - v.y1, r2 = r.r2 - r.r1, r3 = r.r3 - r.r1;
    int64_t area = x2 * y3 - x3 * y2, right = r2 * y3 - r3 * y2, down = r3 * x2 - r2 * x3;
    if (area <= 0)
        return (merikohin_through){9, {0, 0, 0}};
    int64_t first = r.r1 * area + right * (SAMPLE_OFFSET - v.x1) + down * (SAMPLE_OFFSET - v.y1);
    int64_t c = quotient(65536 * first, area) + RAISE;
    int64_t a = quotient(8 * 65536 * right, area), b = quotient(8 * 65536 * down, area);
    if (!fits(c) || !fits(a) || !fits(b))
        return (merikohin_through){9, {0, 0, 0}};
    return (merikohin_through){0, {(int32_t)c, (int32_t)a, (int32_t)b}};
}

/* The number that a panel answers. */
static uint32_t panel_number(size_t ram_len, merikohin_screen s, size_t samples_len, int32_t per_column, int32_t offset)
{
    if (ram_len > MERIKOHIN_RAM_MOST)
        return 3;
    if (!sound(ram_len, s))
        return 5;
    if (samples_len > MERIKOHIN_SAMPLES_MOST || per_column < 1 || per_column > MERIKOHIN_PER_COLUMN_MOST ||
        offset < MERIKOHIN_OFFSET_LEAST || offset > MERIKOHIN_OFFSET_MOST)
        return 10;
    return 0;
}

static int32_t row_of(int32_t v, int32_t height)
{
    return (32767 - v) * height / 65536;
}

/* First and last row of a column's bar. */
struct bar {
    int32_t top, bottom;
};

/* Answers 0 where the column, whose first sample has this number, has none. */
static int find_bar(const int16_t *samples, int32_t count, int32_t first, int32_t per_column, int32_t height, struct bar *bar)
{
    int32_t from = most(0, first), to = least(count, first + per_column);
    if (from >= to)
        return 0;
    int16_t largest = samples[from], smallest = samples[from];
    for (int32_t k = from + 1; k < to; k++) {
        largest = samples[k] > largest ? samples[k] : largest;
        smallest = samples[k] < smallest ? samples[k] : smallest;
    }
    bar->top = row_of(largest, height);
    bar->bottom = row_of(smallest, height);
    return 1;
}

static merikohin_plane flat(uint32_t value)
{
    return (merikohin_plane){(int32_t)(value << 16), 0, 0};
}

merikohin_panelled NAME(panel_stepped)(uint8_t *ram, size_t ram_len, merikohin_screen s, const int16_t *samples,
                                       size_t samples_len, int32_t per_column, int32_t offset, uint16_t colour)
{
    merikohin_panelled answer = {panel_number(ram_len, s, samples_len, per_column, offset), 0};
    if (answer.number != 0)
        return answer;
    int32_t width = (int32_t)(s.size_number / 512) * 16, height = (int32_t)(s.size_number % 512);
    merikohin_triangle t = {.depth = flat(0), .red = flat(colour >> 11), .green = flat(colour >> 5 & 63), .blue = flat(colour & 31)};
    for (int32_t x = 0; x < width; x++) {
        struct bar bar;
        if (!find_bar(samples, (int32_t)samples_len, x * per_column + offset, per_column, height, &bar))
            continue;
        int32_t left = 8 * x, right = 8 * x + 8, top = 8 * bar.top, bottom = 8 * bar.bottom + 8;
        t.vertices = (merikohin_vertices){left, top, right, top, right, bottom};
        answer.pixels += NAME(stepped)(ram, ram_len, s, t).covered;
        t.vertices = (merikohin_vertices){right, bottom, left, bottom, left, top};
        answer.pixels += NAME(stepped)(ram, ram_len, s, t).covered;
    }
    return answer;
}

merikohin_panelled NAME(panel_filled)(uint8_t *ram, size_t ram_len, merikohin_screen s, const int16_t *samples,
                                      size_t samples_len, int32_t per_column, int32_t offset, uint16_t colour)
{
    merikohin_panelled answer = {panel_number(ram_len, s, samples_len, per_column, offset), 0};
    if (answer.number != 0)
        return answer;
    int32_t width = (int32_t)(s.size_number / 512) * 16, height = (int32_t)(s.size_number % 512);
    for (int32_t x = 0; x < width; x++) {
        struct bar bar;
        if (!find_bar(samples, (int32_t)samples_len, x * per_column + offset, per_column, height, &bar))
            continue;
        for (int32_t y = bar.top; y <= bar.bottom; y++) {
            size_t at = 2 * ((size_t)y * (size_t)width + (size_t)x);
            put_half(ram + s.colour_start + at, colour);
            put_half(ram + s.depth_start + at, 0);
        }
        answer.pixels += (uint32_t)(bar.bottom - bar.top + 1);
    }
    return answer;
}
