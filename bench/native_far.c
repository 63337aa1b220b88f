/* Compiled by the rules for structs of x86-64, as the engine's module is. The
 * module takes the address of a large answer as its first argument. */
#define merikohin_fresh declared_fresh
#define merikohin_run declared_run
#define merikohin_step declared_step
#include "merikohin.h"
#undef merikohin_fresh
#undef merikohin_run
#undef merikohin_step
#include "native.h"

void *merikohin_fresh(merikohin_state *answer);
void *merikohin_run(merikohin_ran *answer, const uint32_t *program, size_t program_len, uint32_t *memory, size_t memory_len,
                    uint8_t *ram, size_t ram_len, merikohin_state state, uint64_t budget);
void *merikohin_step(merikohin_stepped *answer, const uint32_t *program, size_t program_len, uint32_t *memory, size_t memory_len,
                     uint8_t *ram, size_t ram_len, merikohin_state state);

void native_clear(uint8_t *ram, size_t ram_len, const void *screen, uint32_t colour, uint32_t depth, uint32_t *number)
{
    *number = merikohin_clear(ram, ram_len, *(const merikohin_screen *)screen, (uint16_t)colour, (uint16_t)depth);
}

void native_draw(uint8_t *ram, size_t ram_len, const void *screen, const void *triangle, void *drawn)
{
    *(merikohin_drawn *)drawn =
        merikohin_draw(ram, ram_len, *(const merikohin_screen *)screen, *(const merikohin_triangle *)triangle);
}

void native_plane_through(const void *vertices, const void *values, void *through)
{
    *(merikohin_through *)through =
        merikohin_plane_through(*(const merikohin_vertices *)vertices, *(const merikohin_values *)values);
}

void native_panel(const struct native_panel *panel, const void *screen, void *panelled)
{
    *(merikohin_panelled *)panelled =
        merikohin_panel(panel->ram, panel->ram_len, *(const merikohin_screen *)screen, panel->samples, panel->samples_len,
                        panel->per_column, panel->offset, (uint16_t)panel->colour);
}

void native_fresh(void *state)
{
    merikohin_fresh(state);
}

void native_run(const struct native_run *run, const void *state, void *ran)
{
    merikohin_run(ran, run->program, run->program_len, run->memory, run->memory_len, run->ram, run->ram_len,
                  *(const merikohin_state *)state, run->budget);
}

void native_step(const struct native_run *run, const void *state, void *stepped)
{
    merikohin_step(stepped, run->program, run->program_len, run->memory, run->memory_len, run->ram, run->ram_len,
                   *(const merikohin_state *)state);
}
