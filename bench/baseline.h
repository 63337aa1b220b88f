/* What the C baselines of drawing, planes, panels and machine have in common.
 * Each is compiled once with each C compiler, and its functions get that
 * compiler's name as a prefix (gcc_stepped, clang_run, ...). */
#ifndef BASELINE_H
#define BASELINE_H

#include "merikohin.h"

#include <string.h>

#ifndef PREFIX
#define PREFIX baseline
#endif
#define JOIN2(a, b) a##_##b
#define JOIN(a, b) JOIN2(a, b)
#define NAME(x) JOIN(PREFIX, x)

static inline int sound(size_t ram_len, merikohin_screen s)
{
    uint32_t groups = s.size_number / 512, height = s.size_number % 512;
    if (groups < 1 || groups > 40 || height < 1 || height > 480)
        return 0;
    uint64_t bytes = (uint64_t)groups * 32 * height;
    if (s.colour_start % 2 != 0 || s.depth_start % 2 != 0)
        return 0;
    if (s.colour_start + bytes > ram_len || s.depth_start + bytes > ram_len)
        return 0;
    return s.colour_start >= s.depth_start + bytes || s.depth_start >= s.colour_start + bytes;
}

static inline void put_half(uint8_t *at, uint16_t value)
{
    at[0] = (uint8_t)(value >> 8);
    at[1] = (uint8_t)value;
}

static inline uint16_t get_half(const uint8_t *at)
{
    return (uint16_t)(at[0] << 8 | at[1]);
}

static inline void fill_area(uint8_t *at, size_t pixels, uint16_t value)
{
    uint8_t half[2];
    put_half(half, value);
    for (size_t i = 0; i < pixels; i++)
        memcpy(at + 2 * i, half, 2);
}

static inline void fill_screen(uint8_t *ram, merikohin_screen s, uint16_t colour, uint16_t depth)
{
    size_t pixels = (size_t)(s.size_number / 512) * 16 * (s.size_number % 512);
    fill_area(ram + s.colour_start, pixels, colour);
    fill_area(ram + s.depth_start, pixels, depth);
}

#endif
