/* The functions of merikohin.h that the benchmark calls, for this machine. */
#include "merikohin.h"
#include "native.h"

uint32_t merikohin_clear(uint8_t *ram, size_t ram_len, merikohin_screen s, uint16_t colour, uint16_t depth)
{
    uint32_t number;
    native_clear(ram, ram_len, &s, colour, depth, &number);
    return number;
}

merikohin_drawn merikohin_draw(uint8_t *ram, size_t ram_len, merikohin_screen s, merikohin_triangle t)
{
    merikohin_drawn drawn;
    native_draw(ram, ram_len, &s, &t, &drawn);
    return drawn;
}

merikohin_through merikohin_plane_through(merikohin_vertices v, merikohin_values r)
{
    merikohin_through through;
    native_plane_through(&v, &r, &through);
    return through;
}

merikohin_panelled merikohin_panel(uint8_t *ram, size_t ram_len, merikohin_screen s, const int16_t *samples, size_t samples_len,
                                   int32_t per_column, int32_t offset, uint16_t colour)
{
    const struct native_panel panel = {ram, ram_len, samples, samples_len, per_column, offset, colour};
    merikohin_panelled panelled;
    native_panel(&panel, &s, &panelled);
    return panelled;
}

merikohin_state merikohin_fresh(void)
{
    merikohin_state state;
    native_fresh(&state);
    return state;
}

merikohin_ran merikohin_run(const uint32_t *program, size_t program_len, uint32_t *memory, size_t memory_len, uint8_t *ram,
                            size_t ram_len, merikohin_state state, uint64_t budget)
{
    const struct native_run run = {program, program_len, memory, memory_len, ram, ram_len, budget};
    merikohin_ran ran;
    native_run(&run, &state, &ran);
    return ran;
}

merikohin_stepped merikohin_step(const uint32_t *program, size_t program_len, uint32_t *memory, size_t memory_len, uint8_t *ram,
                                 size_t ram_len, merikohin_state state)
{
    const struct native_run run = {program, program_len, memory, memory_len, ram, ram_len, 1};
    merikohin_stepped stepped;
    native_step(&run, &state, &stepped);
    return stepped;
}
