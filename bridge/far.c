/* The far side: an x86-64 process that has the proved library. It takes the
 * calls that the near side hands over until there are no more. It stands on no
 * C library, only on four calls of Linux.
 */
#include "request.h"

enum { READ = 0, WRITE = 1, MMAP = 9, EXIT = 60 };

static long system_call(long number, long a, long b, long c, long d, long e, long f)
{
    register long r10 __asm__("r10") = d;
    register long r8 __asm__("r8") = e;
    register long r9 __asm__("r9") = f;
    long answer;
    __asm__ volatile("syscall"
                     : "=a"(answer)
                     : "a"(number), "D"(a), "S"(b), "d"(c), "r"(r10), "r"(r8), "r"(r9)
                     : "rcx", "r11", "memory");
    return answer;
}

/* What compiled code may ask for by name. */
void *memset(void *to, int value, size_t n)
{
    for (uint8_t *at = to; n > 0; n--)
        *at++ = (uint8_t)value;
    return to;
}

void *memcpy(void *to, const void *from, size_t n)
{
    const uint8_t *source = from;
    for (uint8_t *at = to; n > 0; n--)
        *at++ = *source++;
    return to;
}

static void answer(struct request *r)
{
    uint8_t *area = (uint8_t *)r, *ram = area + AREA - r->ram_len;
    switch (r->call) {
    case CLEAR:
        r->number = merikohin_clear(ram, r->ram_len, r->screen, r->colour, r->depth);
        break;
    case DRAW:
        r->drawn = merikohin_draw(ram, r->ram_len, r->screen, r->triangle);
        break;
    case PLANE_THROUGH:
        r->through = merikohin_plane_through(r->vertices, r->values);
        break;
    case PANEL:
        r->panelled = merikohin_panel(ram, r->ram_len, r->screen, (int16_t *)(area + SAMPLES), r->samples_len, r->per_column,
                                      r->offset, r->colour);
        break;
    case ROW_CHECK:
        r->number = merikohin_row_check(ram, r->ram_len, r->screen, r->row);
        break;
    case ROW:
        r->part = merikohin_row(ram, r->ram_len, r->screen, r->row);
        break;
    case DEPTH_ROW:
        r->part = merikohin_depth_row(ram, r->ram_len, r->screen, r->row);
        break;
    case FRESH:
        r->state = merikohin_fresh();
        break;
    case RUN:
        r->ran = merikohin_run((uint32_t *)(area + PROGRAM), r->program_len, (uint32_t *)(area + MEMORY), r->memory_len, ram,
                               r->ram_len, r->state, r->budget);
        break;
    case STEP:
        r->stepped = merikohin_step((uint32_t *)(area + PROGRAM), r->program_len, (uint32_t *)(area + MEMORY), r->memory_len,
                                    ram, r->ram_len, r->state);
        break;
    }
}

__attribute__((used)) static void serve(void)
{
    enum { READ_AND_WRITE = 3, SHARED = 1 };
    struct request *r = (struct request *)system_call(MMAP, 0, AREA, READ_AND_WRITE, SHARED, FILE_FD, 0);
    char byte;
    while (system_call(READ, ASKED_FD, (long)&byte, 1, 0, 0, 0) == 1) {
        answer(r);
        if (system_call(WRITE, ANSWERED_FD, (long)&byte, 1, 0, 0, 0) != 1)
            break;
    }
    system_call(EXIT, 0, 0, 0, 0, 0, 0);
}

__asm__(".globl _start\n_start: call serve\n");
