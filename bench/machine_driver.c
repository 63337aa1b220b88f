/* The benchmark of the machine: the same programs run by the engine and by the
 * C baselines, whose states, memories, RAMs, numbers and steps must end equal. */
#include "harness.h"
#include "merikohin.h"
#include "opcodes.h"
#include "sample.h"

typedef merikohin_ran run_call(const uint32_t *, size_t, uint32_t *, size_t, uint8_t *, size_t, merikohin_state, uint64_t);

run_call gcc_run, clang_run;

const struct named subjects[] = {
    {"engine", "engine"},
    {"gcc", "C switch, gcc"},
#ifdef WITH_CLANG
    {"clang", "C switch, clang"},
#endif
};
static run_call *const runs[] = {
    merikohin_run,
    gcc_run,
#ifdef WITH_CLANG
    clang_run,
#endif
};
enum { RUNS = sizeof runs / sizeof runs[0], WIDTH = 640, HEIGHT = 480, AREA = WIDTH * HEIGHT * 2, WORDS = 1024 };
const int subject_count = RUNS;

const struct named workloads[] = {
    {"arithmetic", "arithmetic loop"},
    {"recp-small", "RECP loop, operands 1 to 512"},
    {"recp-large", "RECP loop, operands above 512"},
    {"recp-mixed", "RECP loop, operands of both kinds"},
    {"shifts", "shift loop, amounts below 32"},
    {"shifts-long", "shift loop, amounts of any size"},
    {"LSL", "LSL alone"},
    {"LSR", "LSR alone"},
    {"ASR", "ASR alone"},
    {"LSLI", "LSLI alone"},
    {"LSRI", "LSRI alone"},
    {"ASRI", "ASRI alone"},
    {"dot", "DOT loop"},
    {"raster", "rasterization loop, 640 by 480"},
    {"moves", "READ and WRITE of a whole screen"},
    {"run-1024", "arithmetic loop, a run of 1,024 steps"},
    {"single", "arithmetic loop, a run of one step"},
    {"step", "arithmetic loop, a step (C: a run of one step)"},
};
const int workload_count = sizeof workloads / sizeof workloads[0];

static uint32_t program[WORDS], first_memory[WORDS];
static size_t program_len, ram_len;
static uint8_t *first_ram;
static merikohin_state start;
static uint64_t budget, calls;
static int by_step; /* the engine is asked for steps and not for runs */

static void emit(enum opcode op, uint32_t r1, uint32_t r2, uint32_t low)
{
    program[program_len++] = (uint32_t)op << 26 | r1 << 21 | r2 << 16 | low;
}

static void rrr(enum opcode op, uint32_t r1, uint32_t r2, uint32_t r3)
{
    emit(op, r1, r2, r3 << 11);
}

static void rri(enum opcode op, uint32_t r1, uint32_t r2, int32_t imm)
{
    emit(op, r1, r2, (uint32_t)imm & 65535);
}

static void jump(enum opcode op, size_t place)
{
    rri(op, 0, 0, (int32_t)place);
}

/* Over and over, 512 turns of: read a word, scale it, sum up, store the sum. */
static void arithmetic(void)
{
    start.registers[2] = 512;
    start.registers[3] = 0xc000;
    start.registers[7] = 1;
    rri(LI, 1, 0, 0);
    size_t turn = program_len;
    rri(LD, 4, 1, 0);
    rrr(MULF, 5, 4, 3);
    rrr(ADD, 6, 6, 5);
    rri(ST, 6, 1, 512);
    rrr(ADD, 1, 1, 7);
    rrr(SUB, 0, 1, 2);
    jump(JLT, turn);
    jump(JMP, 0);
}

/* Over and over, 512 turns of: read a depth, scale its reciprocal, store that.
 * A turn is as long as the arithmetic loop's. The stride through the words is
 * the next odd number after each 512 turns, so that the kinds of operand come
 * in another order each time. The large ones are of all sizes; none is
 * negative, as no depth before the eye is. */
static void recp(int small, int large)
{
    for (int k = 0; k < 512; k++) {
        int is_small = between(1, small + large) <= small;
        first_memory[k] = (uint32_t)(is_small ? between(1, 512) : between(513, INT32_MAX >> between(0, 21)));
    }
    start.registers[2] = 511;
    start.registers[3] = 0xc000;
    start.registers[7] = 1;
    rri(LD, 4, 1, 0);
    rrr(RECP, 5, 4, 0);
    rrr(MULF, 5, 5, 3);
    rri(ST, 5, 1, 512);
    rrr(ADD, 1, 1, 7);
    rrr(AND, 1, 1, 2);
    jump(JNE, 0);
    rri(LI, 7, 7, 2);
    jump(JMP, 0);
}

/* Over and over, 512 turns of: read a word and an amount, take all six shifts,
 * sum up. Of amounts of any size a half is below 64. */
static void shifts(int is_long)
{
    for (int k = 512; k < WORDS; k++) {
        uint32_t small = (uint32_t)between(0, is_long ? 63 : 31);
        first_memory[k] = is_long && between(0, 1) ? (uint32_t)next() : small;
    }
    start.registers[2] = 511;
    start.registers[7] = 1;
    rri(LD, 4, 1, 0);
    rri(LD, 5, 1, 512);
    rrr(LSL, 6, 4, 5);
    rri(ASRI, 6, 6, 3);
    rrr(LSR, 8, 4, 5);
    rri(LSLI, 8, 8, is_long ? 33 : 1);
    rrr(ASR, 9, 6, 5);
    rri(LSRI, 9, 9, 2);
    rrr(ADD, 10, 10, 8);
    rrr(XOR, 10, 10, 9);
    rrr(ADD, 1, 1, 7);
    rrr(AND, 1, 1, 2);
    jump(JNE, 0);
    jump(JMP, 0);
}

/* Over and over, 1,023 times one shift by 5, and a JMP. */
static void shift_alone(enum opcode op)
{
    start.registers[1] = 0x87654321;
    start.registers[2] = 5;
    while (program_len < WORDS - 1)
        if (op < LSLI)
            rrr(op, 3, 1, 2);
        else
            rri(op, 3, 1, 5);
    jump(JMP, 0);
}

/* Over and over, 63 matrices of four rows times one vector. */
static void dot(void)
{
    start.registers[2] = 1020;
    start.registers[3] = 1008;
    rri(LI, 1, 0, 0);
    size_t turn = program_len;
    for (uint32_t k = 0; k < 4; k++) {
        rrr(DOT, 4 + k, 1, 2);
        rri(LI, 1, 1, 4);
    }
    rrr(SUB, 0, 1, 3);
    jump(JLT, turn);
    jump(JMP, 0);
}

/* The paper's loop over all groups of a screen, for a triangle that covers half
 * of it. In each seven the edges come first, then the planes: what a pixel to
 * the right adds, the value at the line's start (an edge's at the sample point
 * of its first pixel), the value at the group; what a row down adds is in the
 * data memory. */
static void raster(void)
{
    enum { X = 1, Y, MAX_X, MAX_Y, MASK, TMP, RIGHT = 7, LINE = 14, VALUE = 21 };
    const int64_t corners[3][2] = {{0, 0}, {8 * WIDTH, 0}, {0, 8 * HEIGHT}};
    start.registers[MAX_X] = WIDTH - 1;
    start.registers[MAX_Y] = HEIGHT - 1;
    start.registers[MASK] = 0xffff;
    for (int k = 0; k < 3; k++) {
        const int64_t *from = corners[k], *to = corners[(k + 1) % 3];
        int64_t dx = to[0] - from[0], dy = to[1] - from[1];
        int zero_inside = dy < 0 || (dy == 0 && dx > 0);
        int64_t value = (SAMPLE_OFFSET - from[1]) * dx - (SAMPLE_OFFSET - from[0]) * dy;
        start.registers[LINE + k] = (uint32_t)(value - (zero_inside ? 0 : 1));
        start.registers[RIGHT + k] = (uint32_t)(-8 * dy);
        first_memory[k] = (uint32_t)(8 * dx);
    }
    for (int k = 3; k < 7; k++) {
        start.registers[LINE + k] = (uint32_t)between(0x10000000, 0x60000000);
        start.registers[RIGHT + k] = (uint32_t)between(-0x8000, 0x8000);
        first_memory[k] = (uint32_t)between(-0x8000, 0x8000);
    }
    start.has_screen = 1;
    start.screen = (merikohin_screen){0, AREA, WIDTH / 16 * 512 + HEIGHT};
    ram_len = 2 * AREA;

    size_t row = program_len;
    rri(LI, X, 0, 0);
    for (uint32_t k = 0; k < 7; k++)
        rrr(OR, VALUE + k, LINE + k, LINE + k);
    size_t group = program_len;
    rrr(TREESET, X, Y, MASK);
    for (uint32_t k = 0; k < 3; k++)
        rrr(TREEIN, VALUE + k, RIGHT + k, 0);
    for (uint32_t k = 0; k < 4; k++)
        rri(TREEVAL, VALUE + 3 + k, RIGHT + 3 + k, (int32_t)k);
    rrr(TREEPUT, 0, 0, 0);
    rri(LI, X, X, 16);
    rrr(SUB, 0, X, MAX_X);
    jump(JLEL, group);
    for (uint32_t k = 0; k < 7; k++) {
        rri(LD, TMP, 0, (int32_t)k);
        rrr(ADD, LINE + k, LINE + k, TMP);
    }
    rri(LI, Y, Y, 1);
    rrr(SUB, 0, Y, MAX_Y);
    jump(JLEL, row);
}

/* All colours and depths of one screen to another, 64 bytes at a time. */
static void moves(void)
{
    start.registers[3] = 2 * AREA;
    start.registers[4] = 64;
    start.registers[5] = 2 * AREA;
    ram_len = 4 * AREA;
    rrr(READ, 1, 2, 0);
    rrr(WRITE, 1, 3, 0);
    rrr(ADD, 2, 2, 4);
    rrr(ADD, 3, 3, 4);
    rrr(SUB, 0, 2, 5);
    jump(JLT, 0);
}

static struct outcome {
    uint32_t memory[WORDS], number;
    uint8_t *ram;
    merikohin_state state;
    uint64_t steps;
} outcomes[RUNS];

void prepare(const char *name)
{
    start = merikohin_fresh();
    for (int k = 0; k < WORDS; k++)
        first_memory[k] = (uint32_t)next();
    budget = 1000000;
    calls = 1;
    if (!strcmp(name, "arithmetic")) {
        arithmetic();
    } else if (!strcmp(name, "recp-small")) {
        recp(1, 0);
    } else if (!strcmp(name, "recp-large")) {
        recp(0, 1);
    } else if (!strcmp(name, "recp-mixed")) {
        recp(1, 1);
    } else if (!strcmp(name, "shifts")) {
        shifts(0);
    } else if (!strcmp(name, "shifts-long")) {
        shifts(1);
    } else if (!strcmp(name, "LSL")) {
        shift_alone(LSL);
    } else if (!strcmp(name, "LSR")) {
        shift_alone(LSR);
    } else if (!strcmp(name, "ASR")) {
        shift_alone(ASR);
    } else if (!strcmp(name, "LSLI")) {
        shift_alone(LSLI);
    } else if (!strcmp(name, "LSRI")) {
        shift_alone(LSRI);
    } else if (!strcmp(name, "ASRI")) {
        shift_alone(ASRI);
    } else if (!strcmp(name, "dot")) {
        dot();
    } else if (!strcmp(name, "raster")) {
        raster();
    } else if (!strcmp(name, "moves")) {
        moves();
    } else if (!strcmp(name, "run-1024")) {
        /* Long enough that a step counts, and so short that what a call costs beside its steps shows. */
        arithmetic();
        budget = 1024;
        calls = 1000;
    } else if (!strcmp(name, "single") || !strcmp(name, "step")) {
        arithmetic();
        budget = 1;
        calls = 7000;
        by_step = !strcmp(name, "step");
    } else {
        fprintf(stderr, "no such workload: %s\n", name);
        exit(2);
    }
    first_ram = room(ram_len);
    if (start.has_screen) {
        memset(first_ram, 0, AREA);
        memset(first_ram + AREA, 255, AREA);
    } else {
        for (size_t k = 0; k < ram_len; k++)
            first_ram[k] = (uint8_t)next();
    }
    for (int k = 0; k < RUNS; k++)
        outcomes[k].ram = room(ram_len);
}

void first_state(int subject)
{
    struct outcome *o = &outcomes[subject];
    memcpy(o->memory, first_memory, sizeof first_memory);
    memcpy(o->ram, first_ram, ram_len);
    o->state = start;
    o->steps = o->number = 0;
}

static void steps_measured(struct outcome *o)
{
    for (uint64_t k = 0; k < calls; k++) {
        merikohin_stepped stepped = merikohin_step(program, program_len, o->memory, WORDS, o->ram, ram_len, o->state);
        o->state = stepped.state;
        o->steps += stepped.carried_out;
        o->number |= stepped.number;
    }
}

void measured(int subject)
{
    struct outcome *o = &outcomes[subject];
    if (by_step && subject == 0) {
        steps_measured(o);
        return;
    }
    for (uint64_t k = 0; k < calls; k++) {
        merikohin_ran ran = runs[subject](program, program_len, o->memory, WORDS, o->ram, ram_len, o->state, budget);
        o->state = ran.state;
        o->steps += ran.steps;
        o->number |= ran.number;
    }
}

/* A screen, a tree or depths that a state does not have may hold anything. */
static merikohin_state meaning(merikohin_state s)
{
    if (!s.has_screen)
        memset(&s.screen, 0, sizeof s.screen);
    if (!s.has_tree)
        memset(&s.tree, 0, sizeof s.tree);
    if (!s.tree.has_depth)
        memset(s.tree.depth, 0, sizeof s.tree.depth);
    return s;
}

void must_agree(const char *workload)
{
    const struct outcome *a = &outcomes[0];
    merikohin_state state = meaning(a->state);
    for (int k = 1; k < RUNS; k++) {
        const struct outcome *b = &outcomes[k];
        merikohin_state other = meaning(b->state);
        if (a->number != b->number || a->steps != b->steps || memcmp(&state, &other, sizeof state) != 0 ||
            memcmp(a->memory, b->memory, sizeof a->memory) != 0 || memcmp(a->ram, b->ram, ram_len) != 0) {
            fprintf(stderr, "%s: %s and %s disagree\n", workload, subjects[0].words, subjects[k].words);
            exit(1);
        }
    }
}

void print_counts(void)
{
    printf("%" PRIu64 " %" PRIu64 " %" PRIu32 "\n", calls, outcomes[0].steps, outcomes[0].state.halt);
}
