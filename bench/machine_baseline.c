/* The C baseline of the machine: the engine's rules as a plain switch
 * interpreter. The state lies in memory and a step works on it there. */
#include "baseline.h"
#include "opcodes.h"

/* What is lent for the length of a run. */
struct lent {
    const uint32_t *program;
    size_t program_len;
    uint32_t *memory;
    uint8_t *ram;
    size_t ram_len;
};

static int tree_fits(merikohin_screen s, uint32_t column, uint32_t row)
{
    return column % 16 == 0 && column < s.size_number / 512 * 16 && row < s.size_number % 512;
}

static uint32_t mulf(uint32_t a, uint32_t b)
{
    return (uint32_t)((int64_t)(int32_t)a * (int32_t)b >> 16);
}

static uint32_t recp(uint32_t a)
{
    return a == 0 ? 2147483647 : (uint32_t)(2147483647 / (int32_t)a);
}

/* C shifts 32 bits by 31 at most. */
static uint32_t lsl(uint32_t a, uint32_t n)
{
    return n < 32 ? a << n : 0;
}

static uint32_t lsr(uint32_t a, uint32_t n)
{
    return n < 32 ? a >> n : 0;
}

static uint32_t asr(uint32_t a, uint32_t n)
{
    return (uint32_t)((int32_t)a >> (n < 32 ? n : 31));
}

/* Number 15 or 16, or 0. */
static uint32_t move_number(size_t ram_len, uint32_t data, uint32_t at)
{
    if (data > 1008)
        return 15;
    return at % 4 != 0 || (uint64_t)at + 64 > ram_len ? 16 : 0;
}

static void read_words(uint32_t *to, const uint8_t *from)
{
    for (int k = 0; k < 16; k++, from += 4)
        to[k] = (uint32_t)from[0] << 24 | (uint32_t)from[1] << 16 | (uint32_t)from[2] << 8 | from[3];
}

static void write_words(uint8_t *to, const uint32_t *from)
{
    for (int k = 0; k < 16; k++, to += 4) {
        to[0] = (uint8_t)(from[k] >> 24);
        to[1] = (uint8_t)(from[k] >> 16);
        to[2] = (uint8_t)(from[k] >> 8);
        to[3] = (uint8_t)from[k];
    }
}

/* Where the tree's first leaf lies in an area that starts here. */
static uint8_t *leaves_at(uint8_t *ram, uint32_t start, const merikohin_state *s)
{
    return ram + start + 2 * ((size_t)s->tree.row * (s->screen.size_number / 512 * 16) + s->tree.column);
}

static void tree_set(merikohin_tree *t, uint32_t column, uint32_t row, uint32_t mask)
{
    memset(t, 0, sizeof *t);
    t->column = column;
    t->row = row;
    for (int k = 0; k < 16; k++) {
        t->inside[k] = mask >> (15 - k) & 1;
        t->outside[k] = !t->inside[k];
    }
}

static void tree_in(merikohin_tree *t, uint32_t value, uint32_t right)
{
    for (uint32_t k = 0; k < 16; k++) {
        int32_t here = (int32_t)(value + k * right);
        t->inside[k] &= here <= 0;
        t->outside[k] |= here < 0;
    }
}

static void tree_depth(merikohin_tree *t, const uint8_t *stored, uint32_t value, uint32_t right)
{
    t->has_depth = 1;
    for (uint32_t k = 0; k < 16; k++) {
        uint16_t depth = (uint16_t)((value + k * right) >> 16);
        int hidden = depth > get_half(stored + 2 * k);
        t->depth[k] = depth;
        t->inside[k] &= !hidden;
        t->outside[k] |= hidden;
    }
}

/* Replaces these bits of each colour. */
static void tree_colour(merikohin_tree *t, uint32_t bits, int shift, uint32_t value, uint32_t right)
{
    for (uint32_t k = 0; k < 16; k++) {
        uint32_t part = (value + k * right) >> 16 << shift & bits;
        t->colour[k] = (uint16_t)((t->colour[k] & ~bits) | part);
    }
}

static void tree_put(const merikohin_tree *t, uint8_t *colours, uint8_t *depths)
{
    for (int k = 0; k < 16; k++) {
        if (t->inside[k] || !t->outside[k]) {
            put_half(colours + 2 * k, t->colour[k]);
            if (t->has_depth)
                put_half(depths + 2 * k, t->depth[k]);
        }
    }
}

/* One step: 0, or the halt number, and then nothing is changed. */
static uint32_t step(const struct lent *m, merikohin_state *s)
{
    if (s->place >= m->program_len)
        return 12;
    const uint32_t word = m->program[s->place];
    uint32_t *const regs = s->registers;
#define R1 regs[word >> 21 & 31]
#define R2 regs[word >> 16 & 31]
#define R3 regs[word >> 11 & 31]
#define IMM (word & 65535)
#define ADDRESS (R2 + (uint32_t)(int16_t)IMM)
    uint32_t value, address, number;
    int jumps;

    switch (word >> 26) {
    case LD:
        address = ADDRESS;
        if (address > 1023)
            return 13;
        value = m->memory[address];
        break;
    case ST:
        address = ADDRESS;
        if (address > 1023)
            return 13;
        m->memory[address] = R1;
        s->place++;
        return 0;
    case LI: value = (uint32_t)(int16_t)ADDRESS; break;
    case ADD: value = R2 + R3; break;
    case SUB: value = R2 - R3; break;
    case MUL: value = R2 * R3; break;
    case MULF: value = mulf(R2, R3); break;
    case RECP: value = recp(R2); break;
    case AND: value = R2 & R3; break;
    case OR: value = R2 | R3; break;
    case XOR: value = R2 ^ R3; break;
    case NOT: value = ~R2; break;
    case LSL: value = lsl(R2, R3); break;
    case LSR: value = lsr(R2, R3); break;
    case ASR: value = asr(R2, R3); break;
    case LSLI: value = lsl(R2, IMM); break;
    case LSRI: value = lsr(R2, IMM); break;
    case ASRI: value = asr(R2, IMM); break;
    case DOT: {
        uint32_t a = R2, b = R3;
        if (a > 1020 || b > 1020)
            return 13;
        value = 0;
        for (int k = 0; k < 4; k++)
            value += mulf(m->memory[a + k], m->memory[b + k]);
        break;
    }

    case JMP: jumps = 1; goto jump;
    case JEQ: case JEQL: jumps = s->zero; goto jump;
    case JNE: case JNEL: jumps = !s->zero; goto jump;
    case JLT: case JLTL: jumps = s->negative; goto jump;
    case JLE: case JLEL: jumps = s->negative || s->zero; goto jump;
    case JGT: case JGTL: jumps = !s->negative && !s->zero; goto jump;
    case JGE: case JGEL: jumps = !s->negative; goto jump;
    case CALL:
        address = ADDRESS;
        regs[31] = s->place + 1;
        s->place = address;
        return 0;

    case READ:
        if ((number = move_number(m->ram_len, R1, R2)) != 0)
            return number;
        read_words(m->memory + R1, m->ram + R2);
        s->place++;
        return 0;
    case WRITE:
        if ((number = move_number(m->ram_len, R1, R2)) != 0)
            return number;
        write_words(m->ram + R2, m->memory + R1);
        s->place++;
        return 0;
    case SCRSET: {
        merikohin_screen screen = {R1, R2, IMM};
        if (!sound(m->ram_len, screen))
            return 17;
        s->has_screen = 1;
        s->screen = screen;
        s->has_tree = 0;
        s->place++;
        return 0;
    }
    case CLS:
        if (!s->has_screen)
            return 17;
        fill_screen(m->ram, s->screen, (uint16_t)R1, (uint16_t)R2);
        s->place++;
        return 0;
    case TREESET:
        if (!s->has_screen)
            return 17;
        if (!tree_fits(s->screen, R1, R2))
            return 14;
        s->has_tree = 1;
        tree_set(&s->tree, R1, R2, R3);
        s->place++;
        return 0;
    case TREEIN:
        if (!s->has_tree)
            return 14;
        tree_in(&s->tree, R1, R2);
        R1 += 16 * R2;
        regs[0] = 0;
        s->place++;
        return 0;
    case TREEVAL:
        if (!s->has_tree || IMM > 3)
            return 14;
        switch (IMM) {
        case 0: tree_depth(&s->tree, leaves_at(m->ram, s->screen.depth_start, s), R1, R2); break;
        case 1: tree_colour(&s->tree, 31 << 11, 11, R1, R2); break;
        case 2: tree_colour(&s->tree, 63 << 5, 5, R1, R2); break;
        case 3: tree_colour(&s->tree, 31, 0, R1, R2); break;
        }
        R1 += 16 * R2;
        regs[0] = 0;
        s->place++;
        return 0;
    case TREEPUT:
        if (!s->has_tree)
            return 14;
        tree_put(&s->tree, leaves_at(m->ram, s->screen.colour_start, s), leaves_at(m->ram, s->screen.depth_start, s));
        s->place++;
        return 0;
    default:
        return 11;
    }
    R1 = value;
    regs[0] = 0;
    s->negative = value >> 31;
    s->zero = value == 0;
    s->place++;
    return 0;
jump:
    s->place = jumps ? ADDRESS : s->place + 1;
    return 0;
}

static int ill_formed(size_t ram_len, const merikohin_state *s)
{
    if (s->registers[0] != 0 || (s->halt != 0 && (s->halt < 11 || s->halt > 17)))
        return 1;
    if (s->has_screen && !sound(ram_len, s->screen))
        return 1;
    return s->has_tree && (!s->has_screen || !tree_fits(s->screen, s->tree.column, s->tree.row));
}

/* Flags and marks as 0 or 1. */
static void tidy(merikohin_state *s)
{
    s->negative = s->negative != 0;
    s->zero = s->zero != 0;
    s->has_screen = s->has_screen != 0;
    s->has_tree = s->has_tree != 0;
    s->tree.has_depth = s->tree.has_depth != 0;
    for (int k = 0; k < 16; k++) {
        s->tree.inside[k] = s->tree.inside[k] != 0;
        s->tree.outside[k] = s->tree.outside[k] != 0;
    }
}

merikohin_ran NAME(run)(const uint32_t *program, size_t program_len, uint32_t *memory, size_t memory_len, uint8_t *ram,
                        size_t ram_len, merikohin_state state, uint64_t budget)
{
    merikohin_ran answer = {0, 0, state};
    if (program_len > 1024)
        answer.number = 1;
    else if (memory_len != 1024)
        answer.number = 2;
    else if (ram_len > MERIKOHIN_RAM_MOST)
        answer.number = 3;
    else if (ill_formed(ram_len, &state))
        answer.number = 4;
    if (answer.number != 0)
        return answer;

    tidy(&answer.state);
    const struct lent m = {program, program_len, memory, ram, ram_len};
    uint64_t steps = 0;
    uint32_t halt = answer.state.halt;
    while (halt == 0 && steps < budget && (halt = step(&m, &answer.state)) == 0)
        steps++;
    answer.state.halt = halt;
    answer.steps = steps;
    return answer;
}
