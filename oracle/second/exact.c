/* exact [N [SEED]]: a second implementation of the frame pass by either choice, from docs/RULES.md alone, whose numbers
 * stand beside the code. It shares nothing with the oracle, the original or the library. On N random frames (100,000)
 * its exact pass is held against zakdomp_find_exact_corners, and its computed one against zakdomp_find_corners: count,
 * ties, levels, seeds and corners in their order, bit for bit, in buffers that just suffice. It says how often the two
 * choices differ; the last line is 'N passed, M failed'. ./run compiles and runs it. */
#include "zakdomp.h"
#include <float.h>
#include <math.h>
#include <stdio.h>
#include <stdlib.h>
#include <string.h>

enum { SIDE = 80, CELLS = SIDE * SIDE, LEVELS = 8, MOST = 1 << 20 };
enum choice { COMPUTED, EXACT };

struct image {
    int w, h;
    uint8_t pixels[CELLS];
};

struct params {
    int ring, window, least, centroid, levels, minimum, search;
    float threshold, radius;
};

/* 3 Ring and response: the map of a box, by floats and in whole fifths */

struct box {
    int x0, y0, x1, y1;
};

struct map {
    int w, h, fifths[CELLS];
    float cells[CELLS];
};

static const int RING[16][2] = {{0, -5}, {2, -5}, {3, -3}, {5, -2}, {5, 0}, {5, 2}, {3, 3}, {2, 5},
                                {0, 5}, {-2, 5}, {-3, 3}, {-5, 2}, {-5, 0}, {-5, -2}, {-3, -3}, {-2, -5}};

static void cell(const struct image *m, int ring, int x, int y, int *fifths, float *response) {
    const uint8_t *at = m->pixels + y * m->w + x;
    int s[16], sr = 0, dr = 0, ring_sum = 0, cross_sum = at[0] + at[1] + at[-1] + at[m->w] + at[-m->w];
    for (int k = 0; k < 16; k++) s[k] = at[(RING[k][1] * m->w + RING[k][0]) * (ring / 5)];
    for (int k = 0; k < 4; k++) sr += abs(s[k] + s[k + 8] - s[k + 4] - s[k + 12]);
    for (int k = 0; k < 8; k++) dr += abs(s[k] - s[k + 8]);
    for (int k = 0; k < 16; k++) ring_sum += s[k];
    *response = ((float)sr - (float)dr) - 16.0f * fabsf((float)ring_sum / 16.0f - (float)cross_sum / 5.0f); /* 3.4 */
    *fifths = 5 * (sr - dr) - abs(5 * ring_sum - 16 * cross_sum);                                           /* 3.5 */
}

static void map_of(const struct image *m, int ring, struct box b, struct map *map) {
    map->w = b.x1 - b.x0;
    map->h = b.y1 - b.y0;
    for (int y = b.y0; y < b.y1; y++) {
        for (int x = b.x0; x < b.x1; x++) {
            int i = (y - b.y0) * map->w + (x - b.x0);
            map->fifths[i] = 0;
            map->cells[i] = 0; /* 3.6 */
            if (x >= ring && y >= ring && x + ring < m->w && y + ring < m->h) {
                cell(m, ring, x, y, &map->fifths[i], &map->cells[i]);
            }
        }
    }
}

/* 4 Peaks, 10.1 the exact list, 23.1 ties, 24.1 neighbours */

static float lifted(float x) { return x > 0 ? x : 0; } /* 1.3 */

/* What stands in the window of a cell, clipped to the map and without the cell itself. */
struct around {
    int larger, equal, positive;          /* by floats */
    int larger_fifths, positive_fifths;   /* by exact values */
};

static struct around around(const struct map *m, int window, int x, int y) {
    struct around a = {0};
    int own = y * m->w + x;
    for (int v = y - window; v <= y + window; v++) {
        for (int u = x - window; u <= x + window; u++) {
            int i = v * m->w + u;
            if (u < 0 || v < 0 || u >= m->w || v >= m->h || i == own) continue;
            a.larger += m->cells[i] > m->cells[own];
            a.equal += m->cells[i] == m->cells[own];
            a.positive += m->cells[i] > 0;
            a.larger_fifths += m->fifths[i] > m->fifths[own];
            a.positive_fifths += m->fifths[i] > 0;
        }
    }
    return a;
}

static int is_peak(const struct map *m, const struct params *p, enum choice choice, int i, const struct around *a) {
    float t = lifted(p->threshold);
    if (choice == COMPUTED) return !(m->cells[i] <= t) && a->larger == 0 && a->positive >= p->least;
    /* A double holds a float and its fivefold exactly: nothing is rounded. */
    return (double)m->fifths[i] > 5.0 * (double)t && a->larger_fifths == 0 && a->positive_fifths >= p->least;
}

/* 5 Centre of mass, about a whole place: 1 where it is accepted */

static int centre(const struct map *m, int r, int cx, int cy, float *x, float *y) {
    float sx = 0, sy = 0, mass = 0;
    if (cx < r || cy < r || cx >= m->w - r || cy >= m->h - r) return 0;
    for (int v = cy - r; v <= cy + r; v++) {
        for (int u = cx - r; u <= cx + r; u++) {
            float value = lifted(m->cells[v * m->w + u]);
            sx = sx + (float)u * value;
            sy = sy + (float)v * value;
            mass = mass + value;
        }
    }
    if (!(mass > 0)) return 0;
    *x = sx / mass;
    *y = sy / mass;
    return 1;
}

/* 9.2 The corners of a map, moved by the box's corner, go behind a list; the ties of all its peaks are answered */

struct corner {
    float x, y, strength;
    uint32_t neighbours;
};

struct list {
    size_t count;
    struct corner at[MOST];
};

static int border_of(const struct params *p) { return p->ring + p->window + p->centroid; }

static uint64_t add_corners(const struct image *m, const struct params *p, enum choice choice, struct box b,
                            struct list *to) {
    static struct map map;
    uint64_t ties = 0;
    int border = border_of(p);
    map_of(m, p->ring, b, &map);
    for (int y = border; y < map.h - border; y++) {
        for (int x = border; x < map.w - border; x++) {
            int i = y * map.w + x;
            struct around a = around(&map, p->window, x, y);
            struct corner c = {0, 0, map.cells[i], (uint32_t)a.positive};
            if (!is_peak(&map, p, choice, i, &a)) continue;
            ties += a.larger > 0 ? 0 : (uint64_t)a.equal; /* 23.1, 23.3: by floats for both choices */
            if (!centre(&map, p->centroid, x, y, &c.x, &c.y)) continue;
            c.x = c.x + (float)b.x0;
            c.y = c.y + (float)b.y0;
            if (to->count < MOST) to->at[to->count++] = c;
        }
    }
    return ties;
}

/* 6 Pyramid */

static struct image halved(const struct image *m) {
    struct image half = {m->w / 2, m->h / 2, {0}};
    for (int y = 0; y < half.h; y++) {
        for (int x = 0; x < half.w; x++) {
            const uint8_t *at = m->pixels + 2 * y * m->w + 2 * x;
            half.pixels[y * half.w + x] = (uint8_t)((at[0] + at[1] + at[m->w] + at[m->w + 1] + 2) / 4);
        }
    }
    return half;
}

static int build(const struct image *m, const struct params *p, struct image *levels) {
    int n = 1;
    if (p->levels == 0 || m->w < p->minimum || m->h < p->minimum) return 0;
    levels[0] = *m;
    while (n < p->levels) {
        struct image next = halved(&levels[n - 1]);
        if (next.w == 0 || next.h == 0 || next.w < p->minimum || next.h < p->minimum) break;
        levels[n++] = next;
    }
    return n;
}

/* 7.2 The ends of a seed's box on one axis: 0 where there is nothing */

static int ends(float seed, int k, int side, const struct params *p, int *low, int *high) {
    int b = border_of(p), r = p->search << k, c = (int)roundf(seed * (float)(1 << k));
    if (r < b + 2) r = b + 2;
    if (c < b + 1 || c >= side - (b + 1)) return 0;
    *low = c - r < b ? b : c - r;
    *high = c + r + 1 > side - b ? side - b : c + r + 1;
    return *high - *low > 2 * b;
}

/* 8 Merging */

static int is_near(float a, float b, float least, float inverse) {
    return labs((long)((a - least) * inverse) - (long)((b - least) * inverse)) <= 1;
}

static void merge(const struct list *from, float radius, struct list *to) {
    float left = INFINITY, top = INFINITY, inverse = 1.0f / radius;
    int off = !isfinite(radius) || radius <= 0; /* 8.1 */
    for (size_t i = 0; i < from->count; i++) {
        left = fminf(left, from->at[i].x);
        top = fminf(top, from->at[i].y);
    }
    to->count = 0;
    for (size_t i = 0; i < from->count; i++) {
        struct corner c = from->at[i];
        size_t k = off ? to->count : 0;
        for (; k < to->count; k++) {
            struct corner o = to->at[k];
            float dx = c.x - o.x, dy = c.y - o.y;
            int near = is_near(c.x, o.x, left, inverse) && is_near(c.y, o.y, top, inverse);
            if (near && dx * dx + dy * dy <= radius * radius) break;
        }
        if (k == to->count) to->at[to->count++] = c;
        else if (c.strength > to->at[k].strength) to->at[k] = c;
    }
}

/* 9.3 The pass */

struct pass {
    int levels;
    struct image level[LEVELS];
    struct list seeds, found, corners;
    uint64_t ties;
};

static void run(const struct image *m, const struct params *p, enum choice choice, struct pass *to) {
    int last = build(m, p, to->level) - 1;
    to->levels = last + 1;
    to->seeds.count = to->found.count = to->ties = 0;
    if (last == 0) to->ties = add_corners(m, p, choice, (struct box){0, 0, m->w, m->h}, &to->found);
    if (last > 0) {
        const struct image *top = &to->level[last];
        add_corners(top, p, choice, (struct box){0, 0, top->w, top->h}, &to->seeds);
        for (size_t i = 0; i < to->seeds.count; i++) {
            struct corner seed = to->seeds.at[i];
            struct box b;
            if (ends(seed.x, last, m->w, p, &b.x0, &b.x1) && ends(seed.y, last, m->h, p, &b.y0, &b.y1)) {
                to->ties += add_corners(m, p, choice, b, &to->found);
            }
        }
    }
    merge(&to->found, p->radius, &to->corners);
}

/* The library's call, in buffers that just suffice, held against a pass */

static int holds(const struct list *l, size_t places, float f[3][MOST], const uint32_t *n) {
    for (size_t i = 0; i < places; i++) {
        struct corner due = {0, 0, 0, 0}, got = {f[0][i], f[1][i], f[2][i], n[i]}; /* 9.6: zero behind the list */
        if (i < l->count) due = l->at[i];
        if (memcmp(&due, &got, sizeof due)) return 0;
    }
    return 1;
}

static int agrees(const struct image *m, const struct params *p, enum choice choice, const struct pass *due) {
    static float map[CELLS], fs[3][MOST], fc[3][MOST];
    static uint32_t ns[MOST], nc[MOST];
    static uint8_t levels[CELLS], above[CELLS];
    size_t cells = (size_t)(m->w * m->h), s = due->seeds.count, c = due->found.count, bytes = 0, count = 77;
    uint64_t ties = 77;
    for (int k = 1; k < due->levels; k++) {
        size_t size = (size_t)(due->level[k].w * due->level[k].h);
        memcpy(above + bytes, due->level[k].pixels, size);
        bytes += size;
    }
    for (size_t i = 0; i < cells; i++) map[i] = 7;
    uint8_t number = (choice == EXACT ? zakdomp_find_exact_corners : zakdomp_find_corners)(
        m->pixels, cells, (size_t)m->w, (size_t)m->h, (uint32_t)p->ring, p->threshold, (uint32_t)p->window,
        (uint32_t)p->least, (uint32_t)p->centroid, p->radius, (uint32_t)p->levels, (size_t)p->minimum,
        (uint32_t)p->search, map, cells, levels, bytes, fs[0], s, fs[1], s, fs[2], s, ns, s, fc[0], c, fc[1], c, fc[2],
        c, nc, c, &count, &ties);
    for (size_t i = 0; i < cells; i++) {
        if (map[i] != 0) return 0;
    }
    return number == 0 && count == due->corners.count && ties == due->ties && memcmp(levels, above, bytes) == 0 &&
           holds(&due->seeds, s, fs, ns) && holds(&due->corners, c, fc, nc);
}

/* Random frames */

static uint64_t state;

static int below(int n) {
    state ^= state << 13;
    state ^= state >> 7;
    state ^= state << 17;
    return (int)((state >> 20) % (uint64_t)n);
}

static int from_to(int low, int high) { return low + below(high - low + 1); }

static float beside(float x) { return below(3) ? nextafterf(x, below(2) ? INFINITY : -INFINITY) : x; }

static float threshold(void) {
    static const float first[] = {0.2f, 0.4f, 0.6f, 0.8f, 4.8f};
    static const float odd[] = {-0.0f,   -1,           NAN,              INFINITY, -INFINITY,
                                FLT_MIN, FLT_TRUE_MIN, 3 * FLT_TRUE_MIN, FLT_MAX,  1e19f};
    switch (below(12)) {
    case 0: case 1: return beside(first[below(5)]);
    case 2: case 3: return beside((float)from_to(1, 5 * from_to(1, 60)) / 5.0f);
    case 4: return beside((float)from_to(1, 10300) / 5.0f);
    case 5: return beside(below(2) ? 2040 : 2041);
    case 6: return odd[below(10)];
    case 7: case 8: return (float)below(30);
    default: return 0;
    }
}

/* The darkest of some near grey levels, most often such that a power of two lies amid them. Where all pixels lie
 * between the same two powers, the means of the crosses are rounded alike, and equal exact values are equal floats. */
static int darkest(int levels) {
    return below(4) ? (1 << from_to(3, 7)) - levels / 2 + (below(4) == 0) : below(257 - levels);
}

static int floor_div(int a, int b) { return a >= 0 ? a / b : -((b - 1 - a) / b); }

/* A turned board with squares `step` grey levels apart, each pixel off by up to `noise`. */
static void board(struct image *m, int dark, int step, int noise, int square) {
    int a = from_to(1, 6), b = below(2) ? 0 : below(a + 1), ou = below(999), ov = below(999);
    int size = (int)(square * hypot(a, b));
    for (int i = 0; i < m->w * m->h; i++) {
        int x = i % m->w, y = i / m->w;
        int bright = (floor_div(a * x - b * y + ou, size) + floor_div(b * x + a * y + ov, size)) & 1;
        int v = dark + bright * step + below(2 * noise + 1) - noise;
        m->pixels[i] = (uint8_t)(v < 0 ? 0 : v > 255 ? 255 : v);
    }
}

static void noisy(struct image *m, int dark, int levels) {
    for (int i = 0; i < m->w * m->h; i++) m->pixels[i] = (uint8_t)(dark + below(levels));
}

/* A tile, repeated; every second one may be its negative, brighter by a step. */
static void tiles(struct image *m) {
    int w = from_to(3, 12), h = from_to(3, 12), levels = from_to(1, 5), step = below(10), negative = below(4) > 0;
    int dark = darkest(levels + step), both = 2 * dark + levels - 1 + step;
    uint8_t tile[12 * 12];
    for (int i = 0; i < w * h; i++) tile[i] = (uint8_t)(dark + below(levels));
    for (int i = 0; i < m->w * m->h; i++) {
        int x = i % m->w, y = i / m->w, v = tile[y % h * w + x % w];
        m->pixels[i] = (uint8_t)(negative && (x / w + y / h) % 2 ? both - v : v);
    }
}

/* Somewhat more than what has one cell inside the border, on two levels if there are so many. */
static int side(const struct params *p) {
    int n = (2 * border_of(p) + 1) * (p->levels > 1 ? 2 : 1) + below(48);
    return n > SIDE ? SIDE : n;
}

static void make(struct image *m, struct params *p) {
    static const float radii[] = {0, 0, 0, 0, 3, 3, 1, 7.3f, 1.0f / 64, 4096, -1, NAN, INFINITY};
    static struct map map;
    int step = from_to(1, 9), levels = from_to(2, 8);
    p->ring = below(8) ? 5 : 10;
    p->threshold = threshold();
    p->window = below(20) ? below(5) : below(17);
    p->least = below(4);
    p->centroid = below(20) ? below(3) : below(6);
    p->radius = radii[below(13)];
    p->levels = below(20) ? from_to(1, 2) : below(5);
    p->minimum = below(8) ? below(3) : below(40);
    p->search = below(20) ? below(9) : below(256);
    m->w = side(p);
    m->h = side(p);
    switch (below(8)) {
    case 0: noisy(m, 0, 256); break;
    case 1: board(m, below(100), from_to(20, 155), below(8), from_to(6, 24)); break;
    case 2: noisy(m, darkest(levels), levels); break;
    case 3: tiles(m); break;
    default: board(m, darkest(step + 1), step, below(2) ? 0 : below(3), from_to(6, 16));
    }
    if (below(4) == 0) { /* at a response, or beside it */
        map_of(m, p->ring, (struct box){0, 0, m->w, m->h}, &map);
        for (int tries = 0; tries < 50; tries++) {
            int i = below(m->w * m->h);
            if (map.fifths[i] <= 0) continue;
            p->threshold = beside(below(2) ? map.cells[i] : (float)map.fifths[i] / 5.0f);
            break;
        }
    }
}

static int same(const struct list *a, const struct list *b) {
    return a->count == b->count && memcmp(a->at, b->at, a->count * sizeof *a->at) == 0;
}

int main(int argc, char **argv) {
    static struct image m;
    static struct pass exact, computed;
    struct params p;
    long frames = argc > 1 ? atol(argv[1]) : 100000, seed = argc > 2 ? atol(argv[2]) : 1;
    long passed = 0, failed = 0, corners = 0, lists = 0, counts = 0, ties = 0;
    for (long at = 0; at < frames; at++) {
        state = ((uint64_t)seed << 32) * 0x9e3779b97f4a7c15u + (uint64_t)at * 0xd1342543de82ef95u + 1;
        for (int i = 0; i < 16; i++) below(2);
        make(&m, &p);
        run(&m, &p, EXACT, &exact);
        run(&m, &p, COMPUTED, &computed);
        if (exact.found.count == MOST || computed.found.count == MOST) continue; /* too many for this program */
        int right = agrees(&m, &p, EXACT, &exact) + agrees(&m, &p, COMPUTED, &computed);
        passed += right;
        failed += 2 - right;
        if (right < 2 && failed <= 20) {
            printf("failed: frame %ld-%ld, threshold %.9g\n", seed, at, (double)p.threshold);
        }
        corners += (long)exact.corners.count;
        lists += !same(&exact.corners, &computed.corners);
        counts += exact.corners.count != computed.corners.count;
        ties += exact.ties != computed.ties;
    }
    printf("%ld frames, %ld exact corners: %ld lists, %ld counts and %ld ties of the two choices differ\n", frames,
           corners, lists, counts, ties);
    printf("%ld passed, %ld failed\n", passed, failed);
    return failed > 0;
}
