/* A smoke test of zakdomp.h over libzakdomp.a. Prints 'N passed, M failed' and returns 0 if none failed. */
#include "zakdomp.h"

#include <math.h>
#include <stdio.h>
#include <string.h>

static int passed, failed;
static int exact; /* which choice `find` and `find_pgm` call: 0 the computed one, 1 the exact one */

static void expect(int holds, const char *what) {
    if (holds) {
        passed++;
    } else {
        failed++;
        printf("failed: %s%s\n", what, exact ? ", by the exact choice" : "");
    }
}

enum { SIDE = 11, CELLS = SIDE * SIDE, PLACES = 4, WIDE = 13, MAP = WIDE * WIDE };

/* The whole case (RULES 14): one corner in the middle of 11 by 11 pixels. */
static void whole_case(uint8_t *img) {
    static const int bright[8][2] = {{0, -5}, {2, -5}, {3, -3}, {5, -2}, {0, 5}, {-2, 5}, {-3, 3}, {-5, 2}};
    static const int cross[5][2] = {{0, 0}, {0, -1}, {0, 1}, {1, 0}, {-1, 0}};
    memset(img, 0, CELLS);
    for (int i = 0; i < 8; i++) img[(5 + bright[i][1]) * SIDE + 5 + bright[i][0]] = 255;
    for (int i = 0; i < 5; i++) img[(5 + cross[i][1]) * SIDE + 5 + cross[i][0]] = 128;
}

struct buffers {
    float map[MAP], seeds[3][PLACES], corners[3][PLACES];
    uint32_t seed_neighbours[PLACES], neighbours[PLACES];
    uint8_t levels[CELLS];
    size_t count;
    uint64_t ties;
};

/* What the four functions that find corners are handed after their parameters. */
#define BUFFERS(b, places)                                                                                       \
    (b)->map, MAP, (b)->levels, CELLS, (b)->seeds[0], PLACES, (b)->seeds[1], PLACES, (b)->seeds[2], PLACES,      \
        (b)->seed_neighbours, PLACES, (b)->corners[0], PLACES, (b)->corners[1], PLACES, (b)->corners[2], PLACES, \
        (b)->neighbours, places, &(b)->count, &(b)->ties

static uint8_t find(const uint8_t *img, size_t length, uint32_t ring, float radius, size_t places, struct buffers *b) {
    return exact ? zakdomp_find_exact_corners(img, length, SIDE, SIDE, ring, 0, 0, 0, 0, radius, 1, 1, 0,
                                              BUFFERS(b, places))
                 : zakdomp_find_corners(img, length, SIDE, SIDE, ring, 0, 0, 0, 0, radius, 1, 1, 0, BUFFERS(b, places));
}

static void frames(const uint8_t *img) {
    struct buffers b;
    memset(&b, 0x41, sizeof b);
    expect(find(img, CELLS, 5, 3, PLACES, &b) == ZAKDOMP_DONE && b.count == 1 && b.ties == 0, "one corner, no tie");
    expect(b.corners[0][0] == 5 && b.corners[1][0] == 5 && b.corners[2][0] == 2032, "at (5, 5), of strength 2032");
    expect(b.neighbours[0] == 0 && b.neighbours[1] == 0 && b.seed_neighbours[0] == 0, "without neighbours");
    expect(b.corners[0][1] == 0 && b.map[60] == 0, "cleared after it");
    b.count = 77;
    b.ties = 78;
    b.map[60] = 7;
    b.neighbours[3] = b.seed_neighbours[3] = 80;
    expect(find(img, CELLS - 1, 5, 3, PLACES, &b) == ZAKDOMP_LENGTH, "a pixel short");
    expect(find(img, CELLS, 6, 3, PLACES, &b) == ZAKDOMP_PARAMETER, "a ring of 6");
    expect(find(img, CELLS, 5, 5000, PLACES, &b) == ZAKDOMP_MERGE_RADIUS, "a radius of 5000");
    expect(b.count == 77 && b.ties == 78 && b.map[60] == 7 && b.corners[0][0] == 5, "refused: as it was");
    expect(b.neighbours[3] == 80 && b.seed_neighbours[3] == 80, "and the neighbours");
    expect(find(img, CELLS, 5, 3, 0, &b) == ZAKDOMP_LIST_SHORT, "no place for a corner's neighbours");
    expect(b.count == 77 && b.ties == 78 && b.map[60] == 0 && b.corners[0][0] == 0, "refused by 10: cleared");
    expect(b.neighbours[3] == 80 && b.seed_neighbours[3] == 0, "as far as the slices go");
}

static uint8_t find_pgm(const uint8_t *upload, size_t length, uint32_t ring, size_t places, struct buffers *b) {
    return exact ? zakdomp_find_exact_corners_pgm(upload, length, ring, 0, 0, 0, 0, 3, 1, 1, 0, BUFFERS(b, places))
                 : zakdomp_find_corners_pgm(upload, length, ring, 0, 0, 0, 0, 3, 1, 1, 0, BUFFERS(b, places));
}

static void photographs(const uint8_t *img) {
    static const char header[] = "P5\n# from the camera\n11 1#c\n1\t255\n";
    enum { AT = sizeof header - 1 };
    uint8_t upload[AT + CELLS + 1];
    size_t at = 77, width = 77, height = 77;
    struct buffers b, before;
    memcpy(upload, header, AT);
    memcpy(upload + AT, img, CELLS);
    upload[AT + CELLS] = '#';
    expect(zakdomp_pgm(upload, sizeof upload, &at, &width, &height) == ZAKDOMP_DONE, "a photograph");
    expect(at == AT && width == SIDE && height == SIDE, "its pixels and sides");
    expect(zakdomp_pgm(upload, AT + CELLS - 1, &at, &width, &height) == ZAKDOMP_PGM, "a pixel short");
    expect(zakdomp_pgm((const uint8_t *)"P5 1 4097", 9, &at, &width, &height) == ZAKDOMP_SIDE, "a side of 4097");
    expect(zakdomp_pgm((const uint8_t *)"P5 0 0 256 ", 11, &at, &width, &height) == ZAKDOMP_MAXVAL, "a maxval of 256");
    expect(at == AT && width == SIDE && height == SIDE, "refused: as they were");
    memset(&b, 0x41, sizeof b);
    expect(find_pgm(upload, sizeof upload, 5, PLACES, &b) == ZAKDOMP_DONE && b.count == 1, "a photograph's corner");
    expect(b.corners[0][0] == 5 && b.corners[1][0] == 5 && b.corners[2][0] == 2032 && b.map[60] == 0,
           "at (5, 5), and cleared");
    expect(b.neighbours[0] == 0 && b.neighbours[1] == 0, "without neighbours");
    memset(&b, 0x41, sizeof b);
    before = b;
    upload[1] = '2';
    expect(find_pgm(upload, sizeof upload, 6, PLACES, &b) == ZAKDOMP_PGM, "P2, before a ring of 6");
    upload[1] = '5';
    upload[AT - 2] = '4';
    expect(find_pgm(upload, sizeof upload, 5, PLACES, &b) == ZAKDOMP_MAXVAL, "a maxval of 254");
    upload[AT - 2] = '5';
    expect(find_pgm(upload, sizeof upload, 6, PLACES, &b) == ZAKDOMP_PARAMETER, "a photograph with a ring of 6");
    expect(memcmp(&b, &before, sizeof b) == 0, "refused: every buffer as it was");
    expect(find_pgm(upload, sizeof upload, 5, 0, &b) == ZAKDOMP_LIST_SHORT && b.map[60] == 0,
           "a photograph without a place: cleared");
}

static uint8_t tipped_in(const uint8_t *img, float threshold, size_t places, struct buffers *b) {
    memset(b, 0x41, sizeof *b);
    return exact
               ? zakdomp_find_exact_corners(img, MAP, WIDE, WIDE, 5, threshold, 1, 0, 0, 0, 1, 1, 0, BUFFERS(b, places))
               : zakdomp_find_corners(img, MAP, WIDE, WIDE, 5, threshold, 1, 0, 0, 0, 1, 1, 0, BUFFERS(b, places));
}

static uint8_t tipped_in_pgm(const uint8_t *upload, size_t length, struct buffers *b) {
    memset(b, 0x41, sizeof *b);
    return exact ? zakdomp_find_exact_corners_pgm(upload, length, 5, 0, 1, 0, 0, 0, 1, 1, 0, BUFFERS(b, PLACES))
                 : zakdomp_find_corners_pgm(upload, length, 5, 0, 1, 0, 0, 0, 1, 1, 0, BUFFERS(b, PLACES));
}

/* With a window of 1 the middle of 13 by 13 pixels is the one cell inside the border. Its response is 28 fifths, and so
 * is that of a cell beside it, whose float is larger: a corner by exact values that rounding tips over. */
static void tipped(void) {
    enum { AT = 13 };
    uint8_t upload[AT + MAP] = "P5 13 13 255\n", *img = upload + AT;
    const size_t due = (size_t)exact;
    struct buffers b;
    for (int i = 0; i < MAP; i++) img[i] = (uint8_t)(7 * i * i % 24);
    expect(tipped_in(img, 0, PLACES, &b) == ZAKDOMP_DONE && b.count == due && b.ties == 0,
           "a corner that rounding tips over, and no tie");
    expect(!exact || (b.corners[0][0] == 6 && b.corners[1][0] == 6 && fabsf(b.corners[2][0] - 5.6f) < 0.001f),
           "in the middle");
    expect(b.corners[0][due] == 0 && b.map[84] == 0, "cleared after it");
    expect(tipped_in(img, 5.5f, PLACES, &b) == ZAKDOMP_DONE && b.count == due, "above 27 fifths and a half");
    expect(tipped_in(img, 5.6f, PLACES, &b) == ZAKDOMP_DONE && b.count == due,
           "above 5.6f, which is a little less than 28");
    expect(tipped_in(img, 5.6000004f, PLACES, &b) == ZAKDOMP_DONE && b.count == 0, "not above the next float");
    expect(tipped_in_pgm(upload, sizeof upload, &b) == ZAKDOMP_DONE && b.count == due, "the same of a photograph");
    expect(tipped_in(img, 0, 0, &b) == (exact ? ZAKDOMP_LIST_SHORT : ZAKDOMP_DONE) && b.map[84] == 0,
           "10 by one of the two");
}

static void stages(const uint8_t *img) {
    float map[CELLS], x[2] = {1, 2}, y[2] = {1, 1}, s[2] = {3, 4}, mass = 9;
    uint32_t k[2] = {7, 2};
    uint8_t levels[CELLS];
    size_t width = 9, height = 9, n = 9;
    uint64_t ties = 9;
    expect(zakdomp_response(img, CELLS, SIDE, SIDE, 5, 4, 5, 6, 99, map, CELLS, &width, &height) == 0,
           "the response of a box");
    expect(width == 2 && height == 6 && map[0] == 0 && map[1] == 2032, "its sides and cells");
    expect(zakdomp_response(img, CELLS, SIDE, SIDE, 5, 0, 0, 11, 11, map, CELLS, &width, &height) == 0,
           "the whole map");
    expect(zakdomp_response(img, CELLS, SIDE, SIDE, 5, 0, 0, 11, 11, map, 120, &width, &height) == ZAKDOMP_MAP_SHORT,
           "a short map");
    expect(width == 11 && height == 11, "refused: sides as they were");
    expect(zakdomp_merge(x, 2, y, 2, s, 2, k, 1, 2, 3, &n) == ZAKDOMP_LIST_SHORT && n == 9,
           "neighbours for one corner of two");
    expect(zakdomp_merge(x, 2, y, 2, s, 2, k, 2, 2, 3, &n) == 0 && n == 1 && x[0] == 2 && s[0] == 4,
           "two corners merged");
    expect(k[0] == 2 && k[1] == 2, "the newcomer's neighbours, and those after them as they were");
    k[0] = 6;
    expect(zakdomp_peaks(map, CELLS, SIDE, SIDE, 5, 0, 0, 0, 0, x, 2, y, 2, s, 2, k, 2, 1, &n, &ties) == 0 && ties == 0,
           "peaks");
    expect(n == 1 && x[0] == 2 && x[1] == 5 && y[1] == 5 && s[1] == 2032, "after the one that is held");
    expect(k[0] == 6 && k[1] == 0, "whose neighbours stay");
    ties = 79;
    expect(zakdomp_peaks(map, CELLS, SIDE, SIDE, 5, 0, 0, 0, 0, x, 2, y, 2, s, 2, k, 2, 2, &n, &ties) ==
               ZAKDOMP_LIST_SHORT,
           "a full buffer");
    expect(zakdomp_peaks(map, CELLS, SIDE, SIDE, 5, 0, 0, 0, 0, x, 2, y, 2, s, 2, k, 1, 1, &n, &ties) ==
               ZAKDOMP_LIST_SHORT,
           "no place for a peak's neighbours");
    expect(n == 1 && ties == 79 && k[1] == 0, "refused: count and ties as they were");
    expect(zakdomp_centroid(map, CELLS, SIDE, SIDE, 1, x + 1, y + 1, &mass) == 0, "the centre of mass");
    expect(x[1] == 5 && y[1] == 5 && mass == 2032, "its place and mass");
    expect(zakdomp_centroid(map, CELLS, SIDE, SIDE, 17, x, y, &mass) == ZAKDOMP_PARAMETER && mass == 2032,
           "a radius of 17");
    expect(zakdomp_level_bytes(SIDE, SIDE, 9, 0) == 25 + 4 + 1, "the bytes of the levels");
    expect(zakdomp_levels(img, CELLS, SIDE, SIDE, 9, 0, levels, 30, &n) == 0 && n == 4, "four levels");
    expect(zakdomp_levels(img, CELLS, SIDE, SIDE, 9, 0, levels, 29, &n) == ZAKDOMP_LEVELS_SHORT && n == 4,
           "a byte short");
}

/* Ring 5 and all else 0 leave column 5 of rows 5 to 7 of a map of 11 by 13 inside the border. */
static void enough_peaks(void) {
    static float map[SIDE * 13];
    uint8_t enough = 9;
    size_t rows = 99;
    for (int i = 0; i < 3; i++) map[(5 + i) * SIDE + 5] = (float)(i + 1);
    for (size_t wanted = 0; wanted < 5; wanted++) {
        expect(zakdomp_has_peaks(map, SIDE * 13, SIDE, 13, 5, 0, 0, 0, 0, wanted, &enough, &rows) == ZAKDOMP_DONE,
               "enough peaks");
        expect(enough == (wanted < 4) && rows == (wanted < 4 ? wanted : 3), "as counted, and the rows");
    }
    expect(zakdomp_has_peaks(map, 130, 10, 13, 5, 0, 0, 0, 0, 1, &enough, &rows) == 0 && enough == 0 && rows == 0,
           "a narrow map");
    expect(zakdomp_has_peaks(map, 130, 10, 13, 5, 0, 0, 0, 0, 0, &enough, &rows) == 0 && enough == 1 && rows == 0,
           "none wanted of it");
    rows = 99;
    expect(zakdomp_has_peaks(map, SIDE * 13, SIDE, 13, 6, 0, 0, 0, 0, 0, &enough, &rows) == ZAKDOMP_PARAMETER,
           "a ring of 6");
    expect(enough == 1 && rows == 99, "refused: as they were");
}

/* The peaks of a map of `fill` but for two cells, `left` at (6, 6) and `right` at (7, 6). With a ring of 5 and a window
 * of 1 the border is 6. */
static void peaks_tied(size_t w, size_t h, float fill, float left, float right, size_t peaks, uint64_t due,
                       const char *what) {
    enum { MOST = 42 * 32 };
    static float map[MOST], x[MOST], y[MOST], s[MOST];
    static uint32_t k[MOST];
    size_t added = 9999;
    uint64_t ties = 9999;
    for (size_t i = 0; i < w * h; i++) map[i] = fill;
    map[6 * w + 6] = left;
    map[6 * w + 7] = right;
    expect(zakdomp_peaks(map, w * h, w, h, 5, 0, 1, 0, 0, x, MOST, y, MOST, s, MOST, k, MOST, 0, &added, &ties) == 0,
           what);
    expect(added == peaks && ties == due, what);
}

static void ties(void) {
    peaks_tied(14, 13, 0, 2, 2, 2, 2, "two peaks that tie");
    peaks_tied(13, 13, 0, 2, 2, 1, 1, "a peak that ties with a cell of the border");
    peaks_tied(13, 13, 0, 2, 3, 0, 0, "a cell that is beaten");
    peaks_tied(13, 13, NAN, NAN, NAN, 1, 0, "NaN equals nothing");
    peaks_tied(13, 13, NAN, INFINITY, INFINITY, 1, 1, "infinity equals infinity");
    peaks_tied(18, 17, 1, 1, 1, 30, 240, "a map of ones");
    peaks_tied(42, 32, 1, 1, 1, 600, 4800, "more peaks than the table has places");
}

/* A peak of 2 in a map of 0 but for three cells of its window, of 1, -1 and NaN, and a cell outside it, of 1. */
static void neighbours_of_a_peak(void) {
    static float map[13 * 13];
    float x = 9, y = 9, s = 9;
    uint32_t k = 9;
    size_t added = 9;
    uint64_t tied = 9;
    map[6 * 13 + 6] = 2;
    map[6 * 13 + 7] = map[4 * 13 + 6] = 1;
    map[5 * 13 + 5] = -1;
    map[7 * 13 + 6] = NAN;
    expect(zakdomp_peaks(map, 169, 13, 13, 5, 0, 1, 1, 0, &x, 1, &y, 1, &s, 1, &k, 1, 0, &added, &tied) == 0 &&
               added == 1,
           "a peak");
    expect(x == 6 && y == 6 && s == 2 && k == 1, "with one neighbour above 0");
    expect(zakdomp_peaks(map, 169, 13, 13, 5, 0, 1, 2, 0, &x, 1, &y, 1, &s, 1, &k, 1, 0, &added, &tied) == 0 &&
               added == 0 && k == 1,
           "not with two");
}

/* The strengths of two corners that join, and whose neighbours the one that is left has: the first's 7, or the second's
 * 2. */
static void neighbours_merged(float first, float second, uint32_t due, const char *what) {
    float x[2] = {1, 2}, y[2] = {1, 1}, s[2] = {first, second};
    uint32_t k[2] = {7, 2};
    size_t kept = 9;
    expect(zakdomp_merge(x, 2, y, 2, s, 2, k, 2, 2, 3, &kept) == 0 && kept == 1 && k[0] == due && k[1] == 2, what);
}

static void neighbours(void) {
    neighbours_of_a_peak();
    neighbours_merged(3, 4, 2, "a stronger corner brings its neighbours");
    neighbours_merged(3, 3, 7, "an equal one does not");
    neighbours_merged(4, 3, 7, "nor a weaker one");
}

static void streams(const uint8_t *img) {
    static const uint8_t head[] = {1, 11, 0, 11, 0, 2, 5, 0, 0, 0, 0, 0, 0, 0, 0, 0, 0x40, 0x40, 1, 1, 0, 0};
    static const char listing[] = "corners 1\n1280 1280 40a00000 40a00000 44fe0000 0\n";
    static uint8_t input[sizeof head + 4 * 33 + 1], output[ZAKDOMP_LONGEST];
    memcpy(input, head, sizeof head);
    for (int k = 0; k < 4; k++) {
        uint8_t *record = input + sizeof head + 33 * k;
        record[0] = 3;
        memcpy(record + 1, img + 32 * k, k < 3 ? 32 : CELLS - 96);
    }
    input[sizeof input - 1] = 4;
    size_t length = zakdomp_corners(input, sizeof input, output);
    expect(length == sizeof listing - 1 && memcmp(output, listing, length) == 0, "the listing of a stream");
    length = zakdomp_corners(input, sizeof input - 1, output);
    expect(length == 10 && memcmp(output, "refused 7\n", length) == 0, "a stream cut short");
}

/* The time of a stream of items, and a record: what follows them. */
static uint8_t *seconds(uint8_t *at, uint64_t second) {
    for (int i = 0; i < 8; i++) *at++ = (uint8_t)(second >> 8 * i);
    return at;
}

static uint8_t *item(uint8_t *at, uint8_t kind, uint64_t start) {
    *at = kind;
    return seconds(at + 1, start);
}

static void holdings(void) {
    static const uint64_t time = 7776000, late = (uint64_t)1 << 40; /* the first second of day 90 */
    static uint8_t input[8 + 5 * 9], output[ZAKDOMP_HOLDINGS];
    uint8_t letter = '?';
    expect(zakdomp_holding(2, 86399, time, &letter) == ZAKDOMP_DONE && letter == 'G',
           "a photograph of day 0 on day 90");
    expect(zakdomp_holding(2, 86400, time, &letter) == ZAKDOMP_DONE && letter == 'H', "a photograph of day 1");
    expect(zakdomp_holding(3, 7171200, time, &letter) == ZAKDOMP_DONE && letter == 'G', "a token a week old");
    expect(zakdomp_holding(1, late, time, &letter) == ZAKDOMP_DONE && letter == 'N', "a file to come");
    expect(zakdomp_holding(4, late + 1, time, &letter) == ZAKDOMP_KIND, "an unknown kind");
    expect(zakdomp_holding(1, 0, late + 1, &letter) == ZAKDOMP_LATE && letter == 'N', "refused: the letter as it was");
    uint8_t *end = seconds(input, time);
    end = item(item(item(item(item(end, 1, 0), 2, 0), 3, 7171201), 2, time + 1), 9, 0);
    memset(output, '?', sizeof output);
    size_t length = zakdomp_holdings(input, (size_t)(end - input), output);
    expect(length == 18 && memcmp(output, "H\nG\nH\nN\nrefused 6\n?", 19) == 0, "the letters of a stream");
    expect(zakdomp_holdings(input, 8, output) == 0, "a time alone");
    length = zakdomp_holdings(input, 12, output);
    expect(length == 10 && memcmp(output, "refused 7\n", length) == 0, "a record cut short");
}

static void writing(const uint8_t *img) {
    static const uint8_t one[] = {1, 1, 0,    1,    0,    2,    5,   0x01, 0,   0xc0, 0x7f, 0,
                                  0, 0, 0x45, 0x23, 0xc1, 0xff, 255, 255,  255, 255,  3,    9};
    static const char listing[] = "corners 1\n1280 1280 40a00000 40a00000 44fe0000 0\n";
    static uint8_t stream[9527], output[ZAKDOMP_LONGEST];
    const uint8_t nine = 9;
    size_t n = 77;
    memset(stream, '?', sizeof stream);
    expect(zakdomp_write_stream(&nine, 1, 1, 1, 5, 0x7fc00001, 0, 0, 0, 0xffc12345, 255, 65535, 255, stream, 55, &n) ==
               ZAKDOMP_STREAM_SHORT,
           "a stream buffer that is a byte short");
    expect(zakdomp_write_stream(&nine, 1, 1, 1, 5, 0, 0, 256, 0, 0, 1, 1, 0, stream, 56, &n) == ZAKDOMP_PARAMETER,
           "a value too wide");
    expect(zakdomp_write_stream(&nine, 1, 97, 1, 6, 0, 0, 0, 0, 0, 1, 1, 0, stream, 0, &n) == ZAKDOMP_SIDE,
           "a side of 97");
    expect(n == 77 && stream[0] == '?', "refused: as it was");
    expect(zakdomp_write_stream(&nine, 1, 1, 1, 5, 0x7fc00001, 0, 0, 0, 0xffc12345, 255, 65535, 255, stream, 56, &n) ==
                   0 &&
               n == 56,
           "a stream of one pixel");
    expect(memcmp(stream, one, sizeof one) == 0 && stream[24] == 0 && stream[54] == 0 && stream[55] == 4 &&
               stream[56] == '?',
           "its bytes, both NaN patterns among them, and no more");
    expect(zakdomp_write_stream(img, CELLS, SIDE, SIDE, 5, 0, 0, 0, 0, 0x40400000, 1, 1, 0, stream, sizeof stream,
                                &n) == 0 &&
               n == 155,
           "the stream of the whole case");
    size_t length = zakdomp_corners(stream, n, output);
    expect(length == sizeof listing - 1 && memcmp(output, listing, length) == 0, "and its listing");
}

struct separate {
    float x[3], y[3], s[3];
    uint32_t k[3];
};

/* Two corners merged into a list whose neighbours have so many places. */
static uint8_t merge_apart(const struct separate *two, size_t count, float radius, struct separate *to, size_t places,
                           size_t *kept) {
    return zakdomp_merge_apart(two->x, 2, two->y, 2, two->s, 2, two->k, 2, count, radius, to->x, 3, to->y, 3, to->s, 3,
                               to->k, places, kept);
}

static void merging_apart(void) {
    const struct separate sevens = {{7, 7, 7}, {7, 7, 7}, {7, 7, 7}, {7, 7, 7}},
                          joined = {{2, 7, 7}, {1, 7, 7}, {4, 7, 7}, {6, 7, 7}};
    const struct separate copied = {{1, -1, 7}, {1, 1, 7}, {3, 4, 7}, {5, 6, 7}};
    struct separate two = {{1, 2, 0}, {1, 1, 0}, {3, 4, 0}, {5, 6, 0}}, before = two, to = sevens;
    size_t kept = 77;
    expect(merge_apart(&two, 2, 3, &to, 1, &kept) == ZAKDOMP_LIST_SHORT,
           "a place for one corner of two, though one would be left");
    expect(merge_apart(&two, 3, 3, &to, 3, &kept) == ZAKDOMP_LIST_SHORT, "three corners of two");
    expect(merge_apart(&two, 2, 5000, &to, 1, &kept) == ZAKDOMP_MERGE_RADIUS, "a radius of 5000 comes first");
    expect(kept == 77 && memcmp(&to, &sevens, sizeof to) == 0, "refused: as it was");
    expect(merge_apart(&two, 2, 3, &to, 2, &kept) == ZAKDOMP_DONE && kept == 1, "two corners merged apart");
    expect(memcmp(&to, &joined, sizeof to) == 0, "the stronger one first, and after it as it was");
    expect(memcmp(&two, &before, sizeof two) == 0, "the two as they were");
    two.x[1] = -1;
    to = sevens;
    expect(merge_apart(&two, 2, 3, &to, 1, &kept) == ZAKDOMP_COORDINATE, "a coordinate of -1 comes first");
    expect(merge_apart(&two, 2, NAN, &to, 1, &kept) == ZAKDOMP_LIST_SHORT && kept == 1,
           "with an off radius only the places count");
    expect(merge_apart(&two, 2, NAN, &to, 2, &kept) == ZAKDOMP_DONE && kept == 2 &&
               memcmp(&to, &copied, sizeof to) == 0,
           "and the list is copied");
}

/* Two corners merged with a table of so many floats. */
static uint8_t merge_by_table(struct separate *two, size_t count, float radius, float *table, size_t floats,
                              size_t *kept) {
    return zakdomp_merge_by_table(two->x, 3, two->y, 2, two->s, 2, two->k, 2, count, radius, table, floats, kept);
}

static void merging_by_table(void) {
    const struct separate given = {{1, 2, 7}, {1, 1, 7}, {3, 4, 7}, {5, 6, 7}},
                          joined = {{2, 2, 7}, {1, 1, 7}, {4, 4, 7}, {6, 6, 7}};
    const float zeros[16] = {0};
    for (size_t floats = 0; floats <= 16; floats++) {
        float table[16], before[16];
        for (size_t i = 0; i < 16; i++) before[i] = table[i] = i % 3 == 0 ? -7.0f : 1e-45f * (float)i;
        struct separate two = given;
        size_t kept = 77;
        expect(merge_by_table(&two, 3, 3, table, floats, &kept) == ZAKDOMP_LIST_SHORT,
               "three corners of two, by a table");
        expect(merge_by_table(&two, 3, 5000, table, floats, &kept) == ZAKDOMP_MERGE_RADIUS,
               "a radius of 5000 comes first");
        expect(kept == 77 && memcmp(table, before, sizeof table) == 0, "refused: the table as it was");
        expect(merge_by_table(&two, 2, 3, table, floats, &kept) == ZAKDOMP_DONE && kept == 1,
               "two corners merged by a table");
        expect(memcmp(&two, &joined, sizeof two) == 0, "the stronger one first, and behind it as it was");
        expect(memcmp(table, zeros, floats * sizeof *table) == 0, "the table is zero");
        expect(memcmp(table + floats, before + floats, (16 - floats) * sizeof *table) == 0, "and behind it as it was");
        two = given;
        table[0] = 3;
        expect(merge_by_table(&two, 2, -1, table, floats, &kept) == ZAKDOMP_DONE && kept == 2,
               "an off radius keeps both");
        expect(memcmp(&two, &given, sizeof two) == 0 && table[0] == (floats ? 0 : 3),
               "as they were, and clears the table");
    }
}

static uint8_t retouch(uint8_t *img, float *map, size_t cells, uint32_t ring, size_t x, size_t y, uint8_t value,
                       size_t *redone) {
    return zakdomp_retouch(img, CELLS, SIDE, SIDE, ring, map, cells, x, y, value, redone);
}

static void retouching(const uint8_t *whole) {
    uint8_t img[CELLS];
    float map[CELLS];
    size_t redone = 77;
    memcpy(img, whole, CELLS);
    for (int i = 0; i < CELLS; i++) map[i] = 7;
    expect(retouch(img, map, CELLS - 1, 5, 5, 5, 129, &redone) == ZAKDOMP_LENGTH, "a cell short");
    expect(retouch(img, map, CELLS, 6, SIDE, 0, 129, &redone) == ZAKDOMP_PARAMETER, "a ring of 6 and a place outside");
    expect(retouch(img, map, CELLS, 5, SIDE, 0, 129, &redone) == ZAKDOMP_OUTSIDE, "a column too many");
    expect(retouch(img, map, CELLS, 5, 0, SIDE, 129, &redone) == ZAKDOMP_OUTSIDE, "a row too many");
    expect(redone == 77 && map[60] == 7 && memcmp(img, whole, CELLS) == 0, "refused: all as it was");
    expect(retouch(img, map, CELLS, 5, 0, 0, 9, &redone) == ZAKDOMP_DONE && redone == 0 && img[0] == 9,
           "a pixel that no cell samples");
    expect(retouch(img, map, CELLS, 5, 5, 0, 254, &redone) == ZAKDOMP_DONE && redone == 1 && map[60] == 2029,
           "a ring place: 15 fifths less");
    expect(retouch(img, map, CELLS, 5, 5, 0, 255, &redone) == ZAKDOMP_DONE && redone == 1 && map[60] == 2032,
           "and again as it was");
    int kept = 0;
    for (int i = 0; i < CELLS; i++) kept += map[i] == 7;
    expect(kept == CELLS - 1, "no other cell");
}

static uint8_t limits(const uint8_t *low, const uint8_t *high, size_t pixels, uint32_t ring, int32_t *lows,
                      size_t places, int32_t *highs) {
    return zakdomp_response_limits(low, pixels, high, CELLS, SIDE, SIDE, ring, lows, places, highs, CELLS + 1);
}

static uint8_t sure_at(const int32_t *lows, const int32_t *highs, size_t cells, uint32_t ring, uint32_t threshold,
                       size_t x, size_t y, uint8_t *sure) {
    return zakdomp_sure_peak(lows, CELLS, highs, cells, SIDE, SIDE, ring, threshold, 0, 0, 0, x, y, sure);
}

static void known_between(const uint8_t *whole) {
    uint8_t low[CELLS], high[CELLS], sure = 77;
    int32_t lows[CELLS + 1], highs[CELLS + 1];
    for (int i = 0; i < CELLS; i++) {
        low[i] = whole[i] - (whole[i] > 0);
        high[i] = whole[i] + (whole[i] < 255);
    }
    for (int i = 0; i <= CELLS; i++) lows[i] = highs[i] = 7;
    expect(limits(high, low, CELLS - 1, 6, lows, CELLS - 1, highs) == ZAKDOMP_LENGTH,
           "a pixel short, crossed, a ring of 6 and a cell short");
    expect(limits(high, low, CELLS, 6, lows, CELLS - 1, highs) == ZAKDOMP_CROSSED,
           "crossed, a ring of 6 and a cell short");
    expect(limits(low, high, CELLS, 6, lows, CELLS - 1, highs) == ZAKDOMP_PARAMETER, "a ring of 6 and a cell short");
    expect(limits(low, high, CELLS, 5, lows, CELLS - 1, highs) == ZAKDOMP_MAP_SHORT, "a cell short");
    expect(lows[0] == 7 && lows[60] == 7 && highs[60] == 7, "refused: both maps as they were");
    expect(limits(low, high, CELLS, 5, lows, CELLS + 1, highs) == ZAKDOMP_DONE && lows[60] == 9920 &&
               highs[60] == 10200,
           "one level either way");
    expect(lows[0] == 0 && highs[120] == 0 && lows[CELLS] == 7 && highs[CELLS] == 7,
           "0 at the edge, and the rest as it was");
    expect(sure_at(lows, highs, CELLS, 5, 1983, 5, 5, &sure) == ZAKDOMP_DONE && sure == 1,
           "9,920 exceeds five times 1,983");
    expect(sure_at(lows, highs, CELLS, 5, 1984, 5, 5, &sure) == ZAKDOMP_DONE && sure == 0, "and not five times 1,984");
    expect(sure_at(lows, highs, CELLS, 5, 858993460, 5, 5, &sure) == ZAKDOMP_DONE && sure == 0,
           "five times a threshold does not wrap");
    expect(sure_at(lows, highs, CELLS, 5, 4294967295, 5, 5, &sure) == ZAKDOMP_DONE && sure == 0, "nor of the largest");
    expect(sure_at(lows, highs, CELLS, 5, 0, 4, 5, &sure) == ZAKDOMP_DONE && sure == 0, "a place in the border");
    sure = 77;
    expect(sure_at(lows, highs, CELLS + 1, 6, 0, SIDE, 0, &sure) == ZAKDOMP_LENGTH, "a cell too many");
    expect(sure_at(lows, highs, CELLS, 6, 0, SIDE, 0, &sure) == ZAKDOMP_PARAMETER, "a ring of 6 and a place outside");
    expect(sure_at(lows, highs, CELLS, 5, 0, SIDE, 0, &sure) == ZAKDOMP_OUTSIDE && sure == 77,
           "refused: the answer as it was");
    expect(limits(whole, whole, CELLS, 5, lows, CELLS, highs) == ZAKDOMP_DONE && lows[60] == 10160 &&
               highs[60] == 10160,
           "known pixels");
    expect(sure_at(lows, highs, CELLS, 5, 2031, 5, 5, &sure) == ZAKDOMP_DONE && sure == 1,
           "a response of 2,032 is above 2,031");
    expect(sure_at(lows, highs, CELLS, 5, 2032, 5, 5, &sure) == ZAKDOMP_DONE && sure == 0, "and not above 2,032");
}

/* A list of corners in slices of different lengths, and a corner that is shown of it. */
struct list {
    size_t count;
    float x[4], y[3], s[5];
    uint32_t n[4], change;
    struct {
        float x, y, s;
        uint32_t n, change;
    } shown;
};

static uint8_t show(struct list *l, size_t place) {
    return zakdomp_show_corner(l->x, 4, l->y, 3, l->s, 5, l->n, 4, l->count, l->change, place, &l->shown.x, &l->shown.y,
                               &l->shown.s, &l->shown.n, &l->shown.change);
}

static uint8_t strike(struct list *l, size_t place, uint32_t shown) {
    return zakdomp_strike_corner(l->x, 4, l->y, 3, l->s, 5, l->n, 4, &l->count, &l->change, place, shown);
}

static void striking(void) {
    static const struct list left = {2, {1, 3, 0, 7},      {10, 30, 0}, {100, 300, 0, 7, 7}, {4, 6, 0, 7},
                                     1, {2, 20, 200, 5, 0}};
    struct list l = {3, {1, 2, 3, 7}, {10, 20, 30}, {100, 200, 300, 7, 7}, {4, 5, 6, 7}, 0, {0, 0, 0, 0, 9}}, before;
    expect(show(&l, 1) == ZAKDOMP_DONE && l.shown.x == 2 && l.shown.change == 0 && l.count == 3,
           "the second corner shown");
    expect(strike(&l, 1, 0) == ZAKDOMP_DONE && memcmp(&l, &left, sizeof l) == 0,
           "struck: later ones up, zero in the last place, and no more");
    expect(strike(&l, 1, 0) == ZAKDOMP_CHANGED && strike(&l, 1, 2) == ZAKDOMP_CHANGED,
           "a number of before, and one to come");
    expect(strike(&l, 2, 1) == ZAKDOMP_BEYOND, "a place beyond the list");
    expect(show(&l, 2) == ZAKDOMP_BEYOND && memcmp(&l, &left, sizeof l) == 0, "refused: all as it was");
    l.n[2] = 8;
    expect(strike(&l, 0, 1) == 0 && strike(&l, 0, 2) == 0 && l.count == 0 && l.change == 3, "all struck");
    expect(l.n[0] == 0 && l.n[1] == 0 && l.n[2] == 8 && l.x[3] == 7,
           "zero in each place that was freed, and in no other");
    expect(strike(&l, 0, 2) == ZAKDOMP_CHANGED && strike(&l, 0, 3) == ZAKDOMP_BEYOND && show(&l, 0) == ZAKDOMP_BEYOND,
           "no corner left");
    l.count = 3;
    l.change = UINT32_MAX;
    before = l;
    expect(strike(&l, 0, UINT32_MAX) == ZAKDOMP_LARGEST, "the largest change number");
    expect(strike(&l, 9, UINT32_MAX) == ZAKDOMP_BEYOND && strike(&l, 9, 5) == ZAKDOMP_CHANGED,
           "16, 17 and 18 in their order");
    expect(memcmp(&l, &before, sizeof l) == 0, "refused: the number does not wrap");
    expect(show(&l, 0) == ZAKDOMP_DONE && l.shown.change == UINT32_MAX, "shown with any number");
    l.count = 4;
    before = l;
    expect(show(&l, 0) == ZAKDOMP_LIST_SHORT && strike(&l, 9, 5) == ZAKDOMP_LIST_SHORT, "four corners in three places");
    expect(memcmp(&l, &before, sizeof l) == 0, "refused: the shown corner too as it was");
}

/* Corners merged by distance alone, in slices of different lengths; both merges of the case that tells them apart
 * (RULES 31.5). */
static void merging_naively(void) {
    float x[4] = {0.99999994f, 2, 0, 7}, y[3] = {0, 0, 100}, s[3] = {1, 1, 1};
    uint32_t n[3] = {4, 5, 6};
    size_t kept = 77;
    expect(zakdomp_merge_naive(x, 4, y, 3, s, 3, n, 2, 3, 1, &kept) == ZAKDOMP_LIST_SHORT,
           "neighbours for two corners of three");
    expect(zakdomp_merge_naive(x, 4, y, 3, s, 3, n, 3, 3, 5000, &kept) == ZAKDOMP_MERGE_RADIUS,
           "a radius of 5000 for distances");
    x[1] = -1;
    expect(zakdomp_merge_naive(x, 4, y, 3, s, 3, n, 2, 3, 5000, &kept) == ZAKDOMP_COORDINATE, "4 before 5 and 10");
    expect(zakdomp_merge_naive(x, 4, y, 3, s, 3, n, 2, 3, 0, &kept) == ZAKDOMP_LIST_SHORT, "an off radius: 10 alone");
    expect(kept == 77 && x[1] == -1 && n[0] == 4, "refused: as it was");
    expect(zakdomp_merge_naive(x, 4, y, 3, s, 3, n, 3, 3, -INFINITY, &kept) == 0 && kept == 3 && x[1] == -1,
           "an off radius keeps the list");
    x[1] = 2;
    expect(zakdomp_merge_naive(x, 4, y, 3, s, 3, n, 3, 3, 1, &kept) == 0 && kept == 2, "two corners by distance alone");
    expect(x[0] == 0.99999994f && x[1] == 0 && y[1] == 100 && n[0] == 4 && n[1] == 6, "the first and the third");
    expect(x[2] == 0 && y[2] == 100 && n[2] == 6 && x[3] == 7, "after them as it was");
    x[1] = 2;
    y[1] = 0;
    expect(zakdomp_merge(x, 4, y, 3, s, 3, n, 3, 3, 1, &kept) == 0 && kept == 3, "three by cells");
    s[1] = 2;
    expect(zakdomp_merge_naive(x, 4, y, 3, s, 3, n, 3, 3, 1, &kept) == 0 && kept == 2 && x[0] == 2 && n[0] == 6,
           "a stronger one with its neighbours");
}

/* The helpers: the whole case by both choices, as an image and as a photograph, with buffers that are used again. */
static void helpers(const uint8_t *img) {
    enum { AT = 13, LARGE = 200 };
    static uint8_t large[LARGE * LARGE];
    uint8_t upload[AT + CELLS] = "P5 11 11 255\n";
    zakdomp_lists found = {0};
    zakdomp_params params = zakdomp_params_default();
    memcpy(upload + AT, img, CELLS);
    expect(zakdomp_find(img, SIDE, SIDE, &params, &found) == ZAKDOMP_DONE && found.count == 0,
           "no corner so near the edge");
    params.window = params.least_neighbours = params.centroid_radius = params.search_radius = 0;
    for (params.exact = 0; params.exact < 2; params.exact++) {
        expect(zakdomp_find(img, SIDE, SIDE, &params, &found) == ZAKDOMP_DONE && found.count == 1,
               "a corner by a helper");
        expect(found.x[0] == 5 && found.y[0] == 5 && found.strength[0] == 2032 && found.neighbours[0] == 0,
               "at (5, 5)");
        expect(zakdomp_find_pgm(upload, sizeof upload, &params, &found) == ZAKDOMP_DONE && found.count == 1,
               "and of a file");
        expect(zakdomp_find_pgm(upload, sizeof upload - 1, &params, &found) == ZAKDOMP_PGM,
               "a pixel short for a helper");
        expect(found.count == 0 && found.ties == 0, "refused: the lists are empty");
    }
    params.exact = 0;
    expect(zakdomp_find(img, 4097, SIDE, &params, &found) == ZAKDOMP_SIDE, "a side of 4097 for a helper");
    expect(zakdomp_find(img, (size_t)-1, (size_t)-1, &params, &found) == ZAKDOMP_SIDE, "the largest sides");
    expect(zakdomp_find(img, 0, 0, &params, &found) == ZAKDOMP_DONE && found.count == 0, "no pixels");
    params.ring = 6;
    expect(zakdomp_find(img, SIDE, SIDE, &params, &found) == ZAKDOMP_PARAMETER && found.count == 0,
           "a ring of 6 for a helper");
    params.ring = 5;
    params.window = UINT32_MAX;
    expect(zakdomp_find(img, SIDE, SIDE, &params, &found) == ZAKDOMP_PARAMETER, "the largest window");
    params.window = 16;
    params.merge_radius = 0;
    for (int i = 0; i < LARGE * LARGE; i++) large[i] = (i % LARGE / 7 + i / LARGE / 7) % 2 ? 255 : 0;
    expect(zakdomp_find(large, LARGE, LARGE, &params, &found) == ZAKDOMP_DONE && found.count > 144,
           "more than places at first");
    const size_t many = found.count;
    params.levels = 3;
    expect(zakdomp_find(large, LARGE, LARGE, &params, &found) == ZAKDOMP_DONE, "on three levels");
    params.levels = 1;
    expect(zakdomp_find(large, LARGE, LARGE, &params, &found) == ZAKDOMP_DONE && found.count == many,
           "and on one again");
    const size_t bytes = found.memory_bytes;
    expect(zakdomp_make_buffers(&found, 1, 1, 1, 1) == found.memory && found.memory_bytes == bytes,
           "memory that is there is kept");
    zakdomp_free(&found);
    expect(found.memory == NULL && found.count == 0, "freed");
    expect(zakdomp_make_buffers(&found, SIZE_MAX / 16, 0, 0, 0) == NULL && found.memory_bytes == 0, "no memory");
    zakdomp_free(&found);
}

int main(void) {
    uint8_t img[CELLS];
    whole_case(img);
    for (exact = 0; exact < 2; exact++) {
        frames(img);
        photographs(img);
        tipped();
    }
    exact = 0;
    stages(img);
    ties();
    neighbours();
    enough_peaks();
    merging_apart();
    merging_by_table();
    retouching(img);
    known_between(img);
    striking();
    merging_naively();
    streams(img);
    writing(img);
    holdings();
    helpers(img);
    printf("C: %d passed, %d failed\n", passed, failed);
    return failed != 0;
}
