/* Draws the outline of the office that document 01 prints, through the C function, and checks what comes back.
 * Build and run: examples/run */
#include "outline.h"

#include <stdio.h>
#include <string.h>

static int passed;
static int failed;

static void expect(const char *what, int64_t got, int64_t wanted)
{
    if (got == wanted) {
        passed++;
    } else {
        failed++;
        printf("%s: got %lld, wanted %lld\n", what, (long long)got, (long long)wanted);
    }
}

/* The float at a place of a polygon: eight bytes, low first. */
static double number_at(const uint8_t *bytes)
{
    uint64_t bits = 0;
    double value;

    for (int i = 7; i >= 0; i--) {
        bits = bits << 8 | bytes[i];
    }
    memcpy(&value, &bits, sizeof value);
    return value;
}

/* Whether out holds the polygon of a ring, and nothing past it was touched. */
static int is_polygon(const uint8_t *out, size_t out_len, const double (*ring)[2], size_t n)
{
    static const uint8_t head[9] = {1, 3, 0, 0, 0, 1, 0, 0, 0};
    size_t end = 13 + 16 * (n + 1);

    if (memcmp(out, head, sizeof head) != 0 || out[9] != n + 1 || out[10] != 0 || out[11] != 0 || out[12] != 0) {
        return 0;
    }
    for (size_t i = 0; i <= n; i++) {
        if (number_at(out + 13 + 16 * i) != ring[i % n][0] || number_at(out + 21 + 16 * i) != ring[i % n][1]) {
            return 0;
        }
    }
    for (size_t i = end; i < out_len; i++) {
        if (out[i] != 0xa5) {
            return 0;
        }
    }
    return 1;
}

static int untouched(const uint8_t *out, size_t out_len)
{
    for (size_t i = 0; i < out_len; i++) {
        if (out[i] != 0xa5) {
            return 0;
        }
    }
    return 1;
}

int main(void)
{
    static const uint8_t points[] = {0, 0, 0, 0, 10, 0, 0, 0, 10, 0, 10, 0, 0, 0, 10, 0, 5, 0, 2, 0};
    static const uint8_t triangles[] = {0, 0, 1, 0, 4, 0, 1, 0, 2, 0, 4, 0, 2, 0, 3, 0, 4, 0, 3, 0, 0, 0, 4, 0};
    static const double hull[4][2] = {{0, 0}, {10, 0}, {10, 10}, {0, 10}};
    static const double dented[5][2] = {{0, 0}, {5, 2}, {10, 0}, {10, 10}, {0, 10}};
    static uint8_t large[4100];
    uint8_t out[128];

    memset(out, 0xa5, sizeof out);
    expect("limit 100", outline_polygon(points, sizeof points, triangles, sizeof triangles, 100, out, sizeof out), 93);
    expect("limit 100, bytes", is_polygon(out, sizeof out, hull, 4), 1);
    memset(out, 0xa5, sizeof out);
    expect("limit 99", outline_polygon(points, sizeof points, triangles, sizeof triangles, 99, out, sizeof out), 109);
    expect("limit 99, bytes", is_polygon(out, sizeof out, dented, 5), 1);
    memset(out, 0xa5, sizeof out);
    expect("just room", outline_polygon(points, sizeof points, triangles, sizeof triangles, 99, out, 109), 109);
    expect("just room, bytes", is_polygon(out, sizeof out, dented, 5), 1);

    memset(out, 0xa5, sizeof out);
    expect("no room", outline_polygon(points, sizeof points, triangles, sizeof triangles, 99, out, 108), -32);
    expect("null output", outline_polygon(points, sizeof points, triangles, sizeof triangles, 99, NULL, 0), -32);
    expect("null blocks", outline_polygon(NULL, 0, NULL, 0, 99, NULL, 0), -2);
    expect("null points", outline_polygon(NULL, 0, triangles, sizeof triangles, 99, out, sizeof out), -2);
    expect("null triangles", outline_polygon(points, sizeof points, NULL, 0, 99, out, sizeof out), -3);
    expect("points cut", outline_polygon(points, sizeof points - 1, NULL, 0, 99, out, sizeof out), -1);
    expect("1 before 3", outline_polygon(points, 3, triangles, 5, 99, out, sizeof out), -1);
    expect("too many points", outline_polygon(large, sizeof large, triangles, 5, 99, out, sizeof out), -2);
    expect("triangles cut", outline_polygon(points, sizeof points, triangles, sizeof triangles - 1, 99, out, 0), -3);
    expect("a point twice", outline_polygon(large, 12, triangles, sizeof triangles, 99, out, 0), -6);
    expect("a corner that is none", outline_polygon(points, sizeof points - 4, triangles, sizeof triangles, 99, out, 0), -7);
    expect("a point that is no corner", outline_polygon(points, sizeof points, triangles + 6, 6, 99, out, 0), -10);
    expect("refused before 32", outline_polygon(points, sizeof points, triangles, 6, 99, out, 0), -10);
    expect("refusals write nothing", untouched(out, sizeof out), 1);

    printf("%d passed, %d failed\n", passed, failed);
    return failed != 0;
}
