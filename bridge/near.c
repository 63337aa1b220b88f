/* The near side: the engine's C functions for a machine that cannot run
 * x86-64 code itself. Each hands its call over to the far side, a process under
 * an emulator that has the proved library, and takes its answer and every lent
 * byte back. One far side for each thread; it ends when its thread's process
 * does. FAR and EMULATOR name the two programs.
 */
#define _GNU_SOURCE
#include "request.h"

#include <fcntl.h>
#include <stdio.h>
#include <stdlib.h>
#include <string.h>
#include <sys/mman.h>
#include <unistd.h>

static _Thread_local struct request *request;
static _Thread_local int asked, answered;

static void must(int holds, const char *what)
{
    if (!holds) {
        fprintf(stderr, "the bridge to the x86-64 library: %s\n", what);
        abort();
    }
}

static void far_side(const int from[3])
{
    /* Out of the way of the three descriptors it is to have. */
    int high[3];
    for (int k = 0; k < 3; k++)
        high[k] = fcntl(from[k], F_DUPFD, 16);
    for (int k = 0; k < 3; k++)
        must(dup2(high[k], FILE_FD + k) == FILE_FD + k, "no descriptor");
    execl(EMULATOR, EMULATOR, FAR, (char *)0);
    must(0, "the emulator does not start");
}

static void start(void)
{
    int file = memfd_create("merikohin", MFD_CLOEXEC), ask[2], answer[2];
    must(file >= 0 && ftruncate(file, AREA) == 0, "no memory to share");
    must(pipe2(ask, O_CLOEXEC) == 0 && pipe2(answer, O_CLOEXEC) == 0, "no pipe");
    request = mmap(0, AREA, PROT_READ | PROT_WRITE, MAP_SHARED, file, 0);
    must(request != MAP_FAILED, "no memory to share");
    pid_t child = fork();
    must(child >= 0, "no process");
    if (child == 0)
        far_side((int[]){file, ask[0], answer[1]});
    close(file), close(ask[0]), close(answer[1]);
    asked = ask[1], answered = answer[0];
}

static uint8_t *part(uint64_t at)
{
    return (uint8_t *)request + at;
}

static void lend(const void *ram, size_t ram_len)
{
    if (!request)
        start();
    must(ram_len <= AREA - WORDS_END, "RAM too long to hand over");
    request->ram_len = ram_len;
    if (ram_len > 0)
        memcpy(part(AREA - ram_len), ram, ram_len);
}

static void hand_over(uint32_t call)
{
    char byte = 0;
    request->call = call;
    must(write(asked, &byte, 1) == 1 && read(answered, &byte, 1) == 1, "the far side has ended");
}

static void take_back(void *ram, size_t ram_len)
{
    if (ram_len > 0)
        memcpy(ram, part(AREA - ram_len), ram_len);
}

uint32_t merikohin_clear(uint8_t *ram, size_t ram_len, merikohin_screen s, uint16_t colour, uint16_t depth)
{
    lend(ram, ram_len);
    request->screen = s, request->colour = colour, request->depth = depth;
    hand_over(CLEAR);
    take_back(ram, ram_len);
    return request->number;
}

merikohin_drawn merikohin_draw(uint8_t *ram, size_t ram_len, merikohin_screen s, merikohin_triangle t)
{
    lend(ram, ram_len);
    request->screen = s, request->triangle = t;
    hand_over(DRAW);
    take_back(ram, ram_len);
    return request->drawn;
}

merikohin_through merikohin_plane_through(merikohin_vertices v, merikohin_values r)
{
    lend(0, 0);
    request->vertices = v, request->values = r;
    hand_over(PLANE_THROUGH);
    return request->through;
}

/* The samples are only read; that they stay is checked here. */
merikohin_panelled merikohin_panel(uint8_t *ram, size_t ram_len, merikohin_screen s, const int16_t *samples, size_t samples_len,
                                   int32_t per_column, int32_t offset, uint16_t colour)
{
    lend(ram, ram_len);
    must(samples_len <= (MEMORY - SAMPLES) / 2, "samples too many to hand over");
    request->screen = s, request->samples_len = samples_len;
    request->per_column = per_column, request->offset = offset, request->colour = colour;
    if (samples_len > 0)
        memcpy(part(SAMPLES), samples, 2 * samples_len);
    hand_over(PANEL);
    must(samples_len == 0 || memcmp(part(SAMPLES), samples, 2 * samples_len) == 0, "a panel changed the samples");
    take_back(ram, ram_len);
    return request->panelled;
}

/* The RAM of the three row calls is only read; that it stays is checked here. */
static void row_call(uint32_t call, const uint8_t *ram, size_t ram_len, merikohin_screen s, uint32_t row)
{
    lend(ram, ram_len);
    request->screen = s, request->row = row;
    hand_over(call);
    must(ram_len == 0 || memcmp(ram, part(AREA - ram_len), ram_len) == 0, "a row call changed the RAM");
}

uint32_t merikohin_row_check(const uint8_t *ram, size_t ram_len, merikohin_screen s, uint32_t row)
{
    row_call(ROW_CHECK, ram, ram_len, s, row);
    return request->number;
}

merikohin_row_part merikohin_row(const uint8_t *ram, size_t ram_len, merikohin_screen s, uint32_t row)
{
    row_call(ROW, ram, ram_len, s, row);
    return request->part;
}

merikohin_row_part merikohin_depth_row(const uint8_t *ram, size_t ram_len, merikohin_screen s, uint32_t row)
{
    row_call(DEPTH_ROW, ram, ram_len, s, row);
    return request->part;
}

merikohin_state merikohin_fresh(void)
{
    lend(0, 0);
    hand_over(FRESH);
    return request->state;
}

/* A run and a step are lent the same; that the program stays is checked here. */
static void machine_call(uint32_t call, const uint32_t *program, size_t program_len, uint32_t *memory, size_t memory_len,
                         uint8_t *ram, size_t ram_len, merikohin_state state, uint64_t budget)
{
    lend(ram, ram_len);
    must(program_len <= (MEMORY - PROGRAM) / 4 && memory_len <= (WORDS_END - MEMORY) / 4, "words too many to hand over");
    request->program_len = program_len, request->memory_len = memory_len;
    request->state = state, request->budget = budget;
    if (program_len > 0)
        memcpy(part(PROGRAM), program, 4 * program_len);
    if (memory_len > 0)
        memcpy(part(MEMORY), memory, 4 * memory_len);
    hand_over(call);
    must(program_len == 0 || memcmp(part(PROGRAM), program, 4 * program_len) == 0, "a machine call changed the program");
    if (memory_len > 0)
        memcpy(memory, part(MEMORY), 4 * memory_len);
    take_back(ram, ram_len);
}

merikohin_ran merikohin_run(const uint32_t *program, size_t program_len, uint32_t *memory, size_t memory_len, uint8_t *ram,
                            size_t ram_len, merikohin_state state, uint64_t budget)
{
    machine_call(RUN, program, program_len, memory, memory_len, ram, ram_len, state, budget);
    return request->ran;
}

merikohin_stepped merikohin_step(const uint32_t *program, size_t program_len, uint32_t *memory, size_t memory_len, uint8_t *ram,
                                 size_t ram_len, merikohin_state state)
{
    machine_call(STEP, program, program_len, memory, memory_len, ram, ram_len, state, 1);
    return request->stepped;
}
