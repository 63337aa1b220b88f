/* The engine's calls with every struct by its address, so that they are the
 * same whichever machine's rules for structs a compiler goes by. */
#ifndef NATIVE_H
#define NATIVE_H

#include <stddef.h>
#include <stdint.h>

struct native_run {
    const uint32_t *program;
    size_t program_len;
    uint32_t *memory;
    size_t memory_len;
    uint8_t *ram;
    size_t ram_len;
    uint64_t budget;
};

struct native_panel {
    uint8_t *ram;
    size_t ram_len;
    const int16_t *samples;
    size_t samples_len;
    int32_t per_column, offset;
    uint32_t colour;
};

void native_clear(uint8_t *ram, size_t ram_len, const void *screen, uint32_t colour, uint32_t depth, uint32_t *number);
void native_draw(uint8_t *ram, size_t ram_len, const void *screen, const void *triangle, void *drawn);
void native_plane_through(const void *vertices, const void *values, void *through);
void native_panel(const struct native_panel *panel, const void *screen, void *panelled);
void native_fresh(void *state);
void native_run(const struct native_run *run, const void *state, void *ran);
void native_step(const struct native_run *run, const void *state, void *stepped);

#endif
