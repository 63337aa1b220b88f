/* Where in a pixel the rules sample, in eighths of a pixel to the right and
 * down: pixel (x, y) at (8x + 4, 8y + 4). Pixel (0, 0)'s point is (4, 4). */
#ifndef SAMPLE_H
#define SAMPLE_H

enum { SAMPLE_OFFSET = 4 };

#endif
