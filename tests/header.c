/* What merikohin.h says and the library does, by C11 and by C++: constants, size
 * numbers, sentences, NULL with length 0, any address, the sample point, planes
 * through values, waveform panels, fields without meaning, single steps.
 * The status is 0 where all holds; else each line that failed is printed.
 */
#include "merikohin.h"

#include <stdio.h>
#include <string.h>

static int failed;

static void check(int holds, int line)
{
    if (!holds) {
        printf("tests/header.c, line %d\n", line);
        failed = 1;
    }
}
#define HOLDS(what) check((what), __LINE__)

static merikohin_screen screen_of(uint32_t colour_start, uint32_t depth_start, uint32_t size_number)
{
    merikohin_screen s;
    s.colour_start = colour_start, s.depth_start = depth_start, s.size_number = size_number;
    return s;
}

static void constants(void)
{
    HOLDS(MERIKOHIN_SIZE(640, 480) == 20960);
    HOLDS(MERIKOHIN_SIZE(16, 1) == 513);
    HOLDS(MERIKOHIN_SIZE(24, 1) == 0);
    HOLDS(MERIKOHIN_SIZE(0, 1) == 0);
    HOLDS(MERIKOHIN_SIZE(656, 1) == 0);
    HOLDS(MERIKOHIN_SIZE(16, 0) == 0);
    HOLDS(MERIKOHIN_SIZE(16, 481) == 0);
    HOLDS(MERIKOHIN_SIZE(-16, 4) == 0);
    HOLDS(MERIKOHIN_SIZE(16u, (uint8_t)4) == 516);
    HOLDS(MERIKOHIN_TREEPUT == 40);
    HOLDS(MERIKOHIN_SAMPLES_MOST == 40960 && MERIKOHIN_PER_COLUMN_MOST == 64);
    HOLDS(MERIKOHIN_OFFSET_LEAST == -2048 && MERIKOHIN_OFFSET_MOST == 2047);
    HOLDS(MERIKOHIN_NO_PANEL == 10);
    char version[16];
    snprintf(version, sizeof version, "%d.%d.%d", MERIKOHIN_VERSION_MAJOR, MERIKOHIN_VERSION_MINOR, MERIKOHIN_VERSION_PATCH);
    HOLDS(strcmp(version, MERIKOHIN_VERSION) == 0);
}

/* Every number has a sentence of its own; all others share one. */
static void sentences(const char *says(uint32_t), const uint32_t *numbers, int count)
{
    for (int k = 0; k < count; k++) {
        HOLDS(strcmp(says(numbers[k]), says(99)) != 0);
        for (int l = 0; l < k; l++)
            HOLDS(strcmp(says(numbers[k]), says(numbers[l])) != 0);
    }
}

static void nothing_lent(void)
{
    merikohin_triangle t;
    memset(&t, 0, sizeof t);
    const merikohin_screen s = screen_of(0, 128, MERIKOHIN_SIZE(16, 4));
    HOLDS(merikohin_clear(NULL, 0, s, 0, 0) == MERIKOHIN_SCREEN_NOT_SOUND);
    HOLDS(merikohin_draw(NULL, 0, s, t).number == MERIKOHIN_SCREEN_NOT_SOUND);
    const merikohin_panelled panel = merikohin_panel(NULL, 0, s, NULL, 0, 1, 0, 0);
    HOLDS(panel.number == MERIKOHIN_SCREEN_NOT_SOUND && panel.pixels == 0);
    HOLDS(merikohin_row_check(NULL, 0, s, 0) == MERIKOHIN_SCREEN_NOT_SOUND);
    HOLDS(merikohin_row(NULL, 0, s, 0).number == MERIKOHIN_SCREEN_NOT_SOUND);
    HOLDS(merikohin_depth_row(NULL, 0, s, 0).number == MERIKOHIN_SCREEN_NOT_SOUND);
    HOLDS(merikohin_run(NULL, 0, NULL, 0, NULL, 0, merikohin_fresh(), 9).number == MERIKOHIN_MEMORY_NOT_1024);
    static uint32_t memory[MERIKOHIN_MEMORY_WORDS];
    const merikohin_ran ran = merikohin_run(NULL, 0, memory, MERIKOHIN_MEMORY_WORDS, NULL, 0, merikohin_fresh(), 9);
    HOLDS(ran.number == MERIKOHIN_DONE && ran.steps == 0 && ran.state.halt == MERIKOHIN_HALT_PLACE);
    HOLDS(merikohin_step(NULL, 0, NULL, 0, NULL, 0, merikohin_fresh()).number == MERIKOHIN_MEMORY_NOT_1024);
    const merikohin_stepped stepped = merikohin_step(NULL, 0, memory, MERIKOHIN_MEMORY_WORDS, NULL, 0, merikohin_fresh());
    HOLDS(stepped.number == MERIKOHIN_DONE && stepped.carried_out == 0 && stepped.state.halt == MERIKOHIN_HALT_PLACE);
}

/* At every address of RAM a clear, a row and a depth row. */
static void any_address(void)
{
    static uint8_t ram[256 + 16];
    const merikohin_screen s = screen_of(0, 128, MERIKOHIN_SIZE(16, 4));
    for (int lead = 0; lead < 16; lead++) {
        HOLDS(merikohin_clear(ram + lead, 256, s, 0x1234, 65535) == MERIKOHIN_DONE);
        HOLDS(ram[lead] == 0x12 && ram[lead + 127] == 0x34 && ram[lead + 128] == 0xff);
        const merikohin_row_part row = merikohin_row(ram + lead, 256, s, 3);
        HOLDS(row.number == MERIKOHIN_DONE && row.start == 96 && row.length == 32);
        const merikohin_row_part depths = merikohin_depth_row(ram + lead, 256, s, 3);
        HOLDS(depths.number == MERIKOHIN_DONE && depths.start == 224 && depths.length == 32);
    }
    HOLDS(merikohin_row_check(ram, 256, s, 4) == MERIKOHIN_ROW_OUT_OF_RANGE);
    HOLDS(merikohin_depth_row(ram, 256, s, 4).number == MERIKOHIN_ROW_OUT_OF_RANGE);
}

static merikohin_drawn drawn(uint8_t *ram, int32_t x1, int32_t y1, int32_t x2, int32_t y2, int32_t x3, int32_t y3)
{
    merikohin_triangle t;
    memset(&t, 0, sizeof t);
    t.vertices.x1 = x1, t.vertices.y1 = y1, t.vertices.x2 = x2, t.vertices.y2 = y2, t.vertices.x3 = x3, t.vertices.y3 = y3;
    t.blue.c = 1 << 16;
    return merikohin_draw(ram, 256, screen_of(0, 128, MERIKOHIN_SIZE(16, 4)), t);
}

/* Of triangles an eighth of a pixel large, each with its upper left corner at one point of the screen, those at a point
 * (8x + 4, 8y + 4) cover pixel (x, y) and the others none. The pair that shares an edge covers 6 and 10. */
static void sampled_at_the_centre(void)
{
    static uint8_t ram[256];
    for (int32_t y = 0; y < 8 * 4; y++) {
        for (int32_t x = 0; x < 8 * 16; x++) {
            memset(ram, 0, sizeof ram);
            const int centre = x % 8 == 4 && y % 8 == 4;
            const merikohin_drawn small = drawn(ram, x, y, x + 1, y, x, y + 1);
            HOLDS(small.number == MERIKOHIN_DONE && small.covered == (centre ? 1u : 0u) && small.written == small.covered);
            HOLDS(ram[2 * (16 * (y / 8) + x / 8) + 1] == centre);
        }
    }
    HOLDS(drawn(ram, 0, 0, 32, 0, 0, 32).covered == 6);
    HOLDS(drawn(ram, 32, 32, 0, 32, 32, 0).covered == 10);
}

static merikohin_through through(int32_t x1, int32_t y1, int32_t x2, int32_t y2, int32_t x3, int32_t y3, int32_t r1, int32_t r2,
                                 int32_t r3)
{
    merikohin_vertices v;
    merikohin_values r;
    v.x1 = x1, v.y1 = y1, v.x2 = x2, v.y2 = y2, v.x3 = x3, v.y3 = y3;
    r.r1 = r1, r.r2 = r2, r.r3 = r3;
    return merikohin_plane_through(v, r);
}

static int is(merikohin_through t, int32_t c, int32_t a, int32_t b)
{
    return t.number == MERIKOHIN_DONE && t.plane.c == c && t.plane.a == a && t.plane.b == b;
}

/* A refusal has its number and three zeros. */
static int none(merikohin_through t, uint32_t number)
{
    return t.number == number && t.plane.c == 0 && t.plane.a == 0 && t.plane.b == 0;
}

/* Planes worked out by hand; c at both ends of signed 32 bits, a and b at the lower, the greatest a that there is, and just past them. */
static void planes_through_values(void)
{
    HOLDS(is(through(4, 4, 36, 4, 4, 36, 10, 30, 20), 10 * 65536 + 1119, 5 * 65536, 5 * 32768));
    HOLDS(is(through(0, 0, 8, 0, 0, 8, 0, 3, 0), 3 * 32768 + 1119, 3 * 65536, 0));
    HOLDS(is(through(4, 4, 28, 4, 4, 28, 1, 0, 0), 65536 + 1119, -21846, -21846));
    HOLDS(is(through(-8192, -8192, 8191, -8192, -8192, 8191, 32767, 32767, 32767), 32767 * 65536 + 1119, 0, 0));
    HOLDS(is(through(-8192, -8192, 8191, -8192, -8192, 8191, 0, 0, 0), 1119, 0, 0));

    HOLDS(is(through(-1091, 4, -330, 4, -1091, 12, 0, 22773, 0), INT32_MAX, 15689370, 0));
    HOLDS(none(through(-1735, 4, -1442, 4, -1735, 12, 0, 5521, 0), MERIKOHIN_NO_PLANE));
    HOLDS(is(through(-2425, 4, -2132, 4, -2425, 12, 16384, 10455, 16384), INT32_MIN, -10609228, 0));
    HOLDS(none(through(-1714, 4, -1187, 4, -1714, 12, 32767, 12664, 32767), MERIKOHIN_NO_PLANE));

    HOLDS(is(through(4, 4, 5, 4, 4, 5, 4096, 0, 4096), 4096 * 65536 + 1119, INT32_MIN, 0));
    HOLDS(none(through(4, 4, 5, 4, 4, 5, 4097, 0, 4097), MERIKOHIN_NO_PLANE));
    HOLDS(is(through(4, 4, 5, 4, 4, 5, 0, 4095, 0), 1119, 4095 * 524288, 0));
    HOLDS(none(through(4, 4, 5, 4, 4, 5, 0, 4096, 0), MERIKOHIN_NO_PLANE));
    HOLDS(is(through(-6496, -7996, -6489, -7997, 6504, 8004, 1, 32001, 0), 33887, 2147483643, -1744830494));
    HOLDS(none(through(-6496, -7996, -6489, -7997, 6504, 8004, 1, 32001, 1), MERIKOHIN_NO_PLANE));
    HOLDS(is(through(4, 4, 5, 4, 4, 5, 4096, 4096, 0), 4096 * 65536 + 1119, 0, INT32_MIN));
    HOLDS(none(through(4, 4, 5, 4, 4, 5, 4097, 4097, 0), MERIKOHIN_NO_PLANE));
    HOLDS(is(through(4, 4, 5, 4, 4, 5, 0, 0, 4095), 1119, 0, 4095 * 524288));
    HOLDS(none(through(4, 4, 5, 4, 4, 5, 0, 0, 4096), MERIKOHIN_NO_PLANE));
}

/* Every vertex number and every value just out of range and at both ends of 32 bits; no area and a negative one; and of several
 * faults at once the lower number. */
static void no_plane(void)
{
    const int32_t far_vertices[] = {-8193, 8192, INT32_MIN, INT32_MAX}, far_values[] = {-1, 32768, INT32_MIN, INT32_MAX};
    for (int k = 0; k < 4; k++) {
        const int32_t v = far_vertices[k], r = far_values[k];
        for (int at = 0; at < 6; at++) {
            int32_t n[6] = {0, 0, 8, 0, 0, 8};
            n[at] = v;
            HOLDS(none(through(n[0], n[1], n[2], n[3], n[4], n[5], 0, 0, 0), MERIKOHIN_VERTEX_OUT_OF_RANGE));
            HOLDS(none(through(n[0], n[1], n[4], n[5], n[2], n[3], 0, r, 0), MERIKOHIN_VERTEX_OUT_OF_RANGE));
        }
        HOLDS(none(through(0, 0, 8, 0, 0, 8, r, 0, 0), MERIKOHIN_NO_PLANE));
        HOLDS(none(through(0, 0, 8, 0, 0, 8, 0, r, 0), MERIKOHIN_NO_PLANE));
        HOLDS(none(through(0, 0, 8, 0, 0, 8, 0, 0, r), MERIKOHIN_NO_PLANE));
        HOLDS(none(through(0, 0, 8, 8, 16, 16, r, r, r), MERIKOHIN_NO_PLANE));
        HOLDS(none(through(0, 0, 0, 8, 8, 0, r, r, r), MERIKOHIN_NO_PLANE));
        HOLDS(none(through(v, v, v, v, v, v, r, r, r), MERIKOHIN_VERTEX_OUT_OF_RANGE));
    }
    HOLDS(none(through(0, 0, 8, 8, 16, 16, 1, 1, 1), MERIKOHIN_NO_PLANE));
    HOLDS(none(through(3, 3, 3, 3, 3, 3, 1, 1, 1), MERIKOHIN_NO_PLANE));
    HOLDS(none(through(0, 0, 0, 8, 8, 0, 1, 1, 1), MERIKOHIN_NO_PLANE));
    HOLDS(none(through(-8192, -8192, -8192, 8191, 8191, -8192, 1, 1, 1), MERIKOHIN_NO_PLANE));
}

/* A RAM with one byte more than may be lent, and a recording with one sample more; a screen of 16 by 4 has its areas from byte 2 on. */
static uint8_t ram_too_long[MERIKOHIN_RAM_MOST + 1];
static int16_t too_many[MERIKOHIN_SAMPLES_MOST + 1];

static merikohin_panelled panel_of(size_t count, int32_t per_column, int32_t offset)
{
    memset(ram_too_long, 7, 262);
    return merikohin_panel(ram_too_long, 262, screen_of(2, 130, MERIKOHIN_SIZE(16, 4)), too_many, count, per_column, offset, 0x1234);
}

/* What was drawn last: a line for each row, and 0 where a byte is neither drawn nor as it was. */
static int draws(merikohin_panelled p, uint32_t pixels, const char *picture)
{
    int holds = p.number == MERIKOHIN_DONE && p.pixels == pixels;
    for (int at = 0; at < 2 * 64; at += 2) {
        const int set = picture[at / 2] == '#';
        const uint8_t *colour = ram_too_long + 2 + at, *depth = ram_too_long + 130 + at;
        holds &= colour[0] == (set ? 0x12 : 7) && colour[1] == (set ? 0x34 : 7);
        holds &= depth[0] == (set ? 0 : 7) && depth[1] == (set ? 0 : 7);
    }
    return holds && ram_too_long[0] == 7 && ram_too_long[1] == 7 && ram_too_long[258] == 7 && ram_too_long[261] == 7;
}

/* A refusal has its number and no pixel, and leaves every byte. */
static int refused(merikohin_panelled p, uint32_t number)
{
    int holds = p.number == number && p.pixels == 0;
    for (int at = 0; at < 262; at++)
        holds &= ram_too_long[at] == 7;
    return holds;
}

/* Panels worked out by hand: both ends of each of four rows; bars; an offset to either side, with columns that have a part of
 * their samples; a recording that is empty, or NULL, or out of sight. */
static void panels(void)
{
    static const int16_t rows[] = {32767, 16384, 16383, 0, -1, -16384, -16385, -32768};
    const char *nothing = "................" "................" "................" "................";
    memcpy(too_many, rows, sizeof rows);
    HOLDS(draws(panel_of(8, 1, 0), 8, "##.............." "..##............" "....##.........." "......##........"));
    HOLDS(draws(panel_of(8, 2, 0), 4, "#..............." ".#.............." "..#............." "...#............"));
    HOLDS(draws(panel_of(7, 3, 0), 5, "#..............." "##.............." ".#.............." "..#............."));
    HOLDS(draws(panel_of(7, 3, -5), 5, ".##............." "..#............." "...#............" "...#............"));
    HOLDS(draws(panel_of(8, 3, 2), 4, "................" "#..............." "##.............." ".#.............."));
    HOLDS(draws(panel_of(8, 64, -63), 5, "##.............." ".#.............." ".#.............." ".#.............."));
    HOLDS(draws(panel_of(8, 1, 8), 0, nothing) && draws(panel_of(8, 1, -16), 0, nothing));
    HOLDS(draws(panel_of(8, 1, 7), 1, "................" "................" "................" "#..............."));
    HOLDS(draws(panel_of(8, 1, -15), 1, "...............#" "................" "................" "................"));
    HOLDS(draws(panel_of(0, 1, 0), 0, nothing));

    const merikohin_screen s = screen_of(2, 130, MERIKOHIN_SIZE(16, 4));
    HOLDS(draws(merikohin_panel(ram_too_long, 262, s, NULL, 0, 64, 2047, 0x1234), 0, nothing));
    HOLDS(memcmp(too_many, rows, sizeof rows) == 0);
    memset(too_many, 0, sizeof rows);
}

/* Both sides of the sample count, of the samples a column and of the offset, and both ends of 32 bits; of several faults at once the
 * lower number. */
static void no_panel(void)
{
    const char *silence = "................" "################" "................" "................";
    HOLDS(draws(panel_of(MERIKOHIN_SAMPLES_MOST, MERIKOHIN_PER_COLUMN_MOST, MERIKOHIN_OFFSET_MOST), 16, silence));
    HOLDS(draws(panel_of(MERIKOHIN_SAMPLES_MOST, 1, 0), 16, silence));
    HOLDS(panel_of(2048, 64, MERIKOHIN_OFFSET_LEAST).number == MERIKOHIN_DONE);
    HOLDS(refused(panel_of(MERIKOHIN_SAMPLES_MOST + 1, 1, 0), MERIKOHIN_NO_PANEL));
    const int32_t far_n[] = {0, 65, -1, INT32_MIN, INT32_MAX}, far_d[] = {-2049, 2048, -65536, INT32_MIN, INT32_MAX};
    const merikohin_screen good = screen_of(2, 130, MERIKOHIN_SIZE(16, 4)), odd = screen_of(1, 130, MERIKOHIN_SIZE(16, 4));
    for (int k = 0; k < 5; k++) {
        HOLDS(refused(panel_of(100, far_n[k], 0), MERIKOHIN_NO_PANEL));
        HOLDS(refused(panel_of(0, far_n[k], 0), MERIKOHIN_NO_PANEL));
        HOLDS(refused(panel_of(100, 1, far_d[k]), MERIKOHIN_NO_PANEL));
        HOLDS(refused(panel_of(MERIKOHIN_SAMPLES_MOST + 1, far_n[k], far_d[k]), MERIKOHIN_NO_PANEL));
        HOLDS(refused(merikohin_panel(ram_too_long, 262, odd, too_many, 100, far_n[k], far_d[k], 1), MERIKOHIN_SCREEN_NOT_SOUND));
        HOLDS(refused(merikohin_panel(ram_too_long, 257, good, too_many, 100, far_n[k], 0, 1), MERIKOHIN_SCREEN_NOT_SOUND));
        HOLDS(refused(merikohin_panel(ram_too_long, sizeof ram_too_long, odd, too_many, MERIKOHIN_SAMPLES_MOST + 1, far_n[k], 0, 1),
                      MERIKOHIN_RAM_TOO_LONG));
    }
    HOLDS(refused(merikohin_panel(ram_too_long, sizeof ram_too_long, good, too_many, 100, 1, 0, 1), MERIKOHIN_RAM_TOO_LONG));
    HOLDS(refused(merikohin_panel(ram_too_long, 262, odd, too_many, 100, 1, 0, 1), MERIKOHIN_SCREEN_NOT_SOUND));
    HOLDS(draws(merikohin_panel(ram_too_long, MERIKOHIN_RAM_MOST, good, too_many, 100, 1, 0, 0x1234), 16, silence));
}

/* A fresh state has 0 in every field; a run leaves what was there in those that mean nothing,
 * but for yes and no, which become 1 and 0. */
static void without_meaning(void)
{
    static uint32_t memory[MERIKOHIN_MEMORY_WORDS];
    const uint32_t program[] = {(uint32_t)MERIKOHIN_LI << 26 | 1 << 21 | 7};
    merikohin_state state = merikohin_fresh();
    const uint32_t *words = (const uint32_t *)(const void *)&state;
    for (size_t k = 0; k < sizeof state / 4; k++)
        HOLDS(words[k] == 0);
    state.screen = screen_of(1, 2, 3);
    state.tree.column = 5;
    state.tree.depth[15] = 6;
    state.tree.has_depth = 7;
    const merikohin_ran ran = merikohin_run(program, 1, memory, MERIKOHIN_MEMORY_WORDS, NULL, 0, state, 9);
    HOLDS(ran.number == MERIKOHIN_DONE && ran.steps == 1 && ran.state.registers[1] == 7);
    HOLDS(ran.state.screen.colour_start == 1 && ran.state.screen.depth_start == 2 && ran.state.screen.size_number == 3);
    HOLDS(ran.state.tree.column == 5 && ran.state.tree.depth[15] == 6 && ran.state.tree.has_depth == 1);
}

/* A step that is carried out, one that halts, one from a halted state and one refused; and that they in turn are a run. */
static void steps(void)
{
    static uint32_t memory[MERIKOHIN_MEMORY_WORDS];
    static uint8_t ram[64];
    const uint32_t program[] = {(uint32_t)MERIKOHIN_LI << 26 | 1 << 21 | 7, (uint32_t)MERIKOHIN_ST << 26 | 1 << 21 | 3};
    merikohin_state state = merikohin_fresh();
    state.zero = 2;
    uint64_t count = 0;
    for (uint32_t k = 0; k < 4; k++) {
        const merikohin_stepped s = merikohin_step(program, 2, memory, MERIKOHIN_MEMORY_WORDS, ram, sizeof ram, state);
        HOLDS(s.number == MERIKOHIN_DONE && s.carried_out == (k < 2));
        HOLDS(s.state.place == (k < 2 ? k + 1 : 2) && s.state.halt == (k < 2 ? MERIKOHIN_HALT_NONE : MERIKOHIN_HALT_PLACE));
        HOLDS(s.state.registers[1] == 7 && s.state.zero == 0 && memory[3] == (k < 1 ? 0 : 7));
        state = s.state;
        count += s.carried_out;
    }
    memory[3] = 0;
    const merikohin_ran ran = merikohin_run(program, 2, memory, MERIKOHIN_MEMORY_WORDS, ram, sizeof ram, merikohin_fresh(), 4);
    HOLDS(ran.number == MERIKOHIN_DONE && ran.steps == count && memory[3] == 7);
    HOLDS(memcmp(&ran.state, &state, sizeof state) == 0);

    state = merikohin_fresh();
    state.registers[0] = 1, state.zero = 2, state.tree.inside[15] = 3;
    const merikohin_stepped s = merikohin_step(program, 2, memory, MERIKOHIN_MEMORY_WORDS, ram, sizeof ram, state);
    HOLDS(s.number == MERIKOHIN_STATE_ILL_FORMED && s.carried_out == 0 && memcmp(&s.state, &state, sizeof state) == 0);
}

int main(void)
{
    const uint32_t numbers[] = {0, 1, 2, 3, 4, 5, 6, 7, 8, 9, 10}, halts[] = {0, 11, 12, 13, 14, 15, 16, 17};
    constants();
    sentences(merikohin_says, numbers, 11);
    sentences(merikohin_halt_says, halts, 8);
    nothing_lent();
    any_address();
    sampled_at_the_centre();
    planes_through_values();
    no_plane();
    panels();
    no_panel();
    without_meaning();
    steps();
    return failed;
}
