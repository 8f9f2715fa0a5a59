/* The response of a whole image, written in C in the way that a compiler likes best: for what the processor can do. */
#include <stddef.h>
#include <stdint.h>
#include <string.h>

static const int PLACES[16][2] = {{0, -5}, {2, -5}, {3, -3}, {5, -2}, {5, 0},  {5, 2},   {3, 3},   {2, 5},
                                  {0, 5},  {-2, 5}, {-3, 3}, {-5, 2}, {-5, 0}, {-5, -2}, {-3, -3}, {-2, -5}};

/* 16 bits hold every sum, so that a vector has twice as many. */
typedef int16_t sum_t;

static inline sum_t gap(sum_t a, sum_t b) {
    return a < b ? b - a : a - b;
}

/* n cells from p on, in an image of which s[k] is how far the ring's place k lies away. */
static void row(const uint8_t *restrict p, const ptrdiff_t *s, ptrdiff_t w, size_t n, float *restrict out) {
    const uint8_t *q[16];
    for (int k = 0; k < 16; k++) q[k] = p + s[k];
    for (size_t i = 0; i < n; i++) {
        sum_t sr = 0, dr = 0, sum = 0;
        for (int k = 0; k < 4; k++) {
            sum_t a = q[k][i] + q[k + 8][i], b = q[k + 4][i] + q[k + 12][i];
            sr += gap(a, b);
            sum += a + b;
        }
        for (int k = 0; k < 8; k++) dr += gap(q[k][i], q[k + 8][i]);
        sum_t cross = p[i] + p[i - w] + p[i + w] + p[i + 1] + p[i - 1];
        float off = (float)sum / 16.0f - (float)cross / 5.0f;
        out[i] = (float)(sum_t)(sr - dr) - 16.0f * (off < 0 ? -off : off);
    }
}

/* The map of an image whose sides are above twice the ring's radius. */
void response_in_c(const uint8_t *img, size_t w, size_t h, int ring, float *map) {
    ptrdiff_t s[16];
    /* the second ring is twice the first */
    for (int k = 0; k < 16; k++) s[k] = (ptrdiff_t)(PLACES[k][1] * (ring / 5)) * (ptrdiff_t)w + PLACES[k][0] * (ring / 5);
    size_t r = (size_t)ring;
    memset(map, 0, w * h * sizeof *map);
    for (size_t y = r; y < h - r; y++) row(img + y * w + r, s, (ptrdiff_t)w, w - 2 * r, map + y * w + r);
}
