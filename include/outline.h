/* Outlines of offices: the console's C function. Link libhost.a; see README.md. */
#ifndef OUTLINE_H
#define OUTLINE_H

#include <stddef.h>
#include <stdint.h>

#ifdef __cplusplus
extern "C" {
#endif

/* Checks the triangulation of an office, draws the outline for one limit and writes it as a polygon (OGC well-known binary, little-endian)
 * at the front of out.
 *
 *   points     4 bytes a point: x, then y, each two bytes, low byte first. 3 to 1,024 points; coordinates are whole metres, 0 to 16,383.
 *   triangles  6 bytes a triangle: three point numbers from 0, counterclockwise, each two bytes, low byte first. 1 to 2,043 triangles.
 *   limit      a squared length in square metres: a removable side strictly longer than it is peeled.
 *   out        the output; 16,413 bytes are enough for every office.
 *
 * Answers the number of bytes written, or minus a refusal number:
 *
 *    -1  points_len is no multiple of 4
 *    -2  fewer than 3 or more than 1,024 points
 *    -3  triangles_len is 0, no multiple of 6, or over 12,258
 *    -5  a coordinate above 16,383
 *    -6  a point equals an earlier one
 *    -7  a corner is no point number
 *    -8  a triangle's doubled area is zero or negative
 *    -9  a directed side also stands in an earlier triangle
 *   -10  a point is no corner
 *   -11  a point strictly inside a triangle's circle
 *   -12  the rim is not one ring with each point once
 *   -13  a point strictly right of a rim side
 *   -32  out_len is too small for this polygon; asked last
 *
 * They are tested in this order. A refusal writes nothing; otherwise the bytes of out past those written stay as they were.
 *
 * All memory is the caller's. The function reads points and triangles, writes out, keeps no pointer and allocates nothing; of C's library
 * it calls memcpy and memset. It may run in several threads at once, each on its own out. out must not overlap points or triangles. A
 * pointer may be null where its length is 0. It needs some 140 KiB of stack
 * (measured with an older toolchain).
 */
int64_t outline_polygon(const uint8_t *points, size_t points_len,
                        const uint8_t *triangles, size_t triangles_len,
                        uint32_t limit,
                        uint8_t *out, size_t out_len);

#ifdef __cplusplus
}
#endif

#endif
