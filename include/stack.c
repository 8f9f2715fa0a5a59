/* How much stack the calls of zakdomp.h take: each runs on the main thread, and then on a thread that has just the
 * stack that the header asks for. Results and buffers must be the same. Prints what was used, 'N passed, M failed' at
 * the end, and returns 0 if none failed; a call that needs more stack ends the program by a signal. */
#define _GNU_SOURCE /* pthread_getattr_np */
#include "zakdomp.h"

#include <pthread.h>
#include <stdio.h>
#include <stdlib.h>
#include <string.h>

enum { KB = 1024, SMALL = 192 * KB, LARGE = 768 * KB }; /* what zakdomp.h says */
enum { LARGEST = 400, CELLS = LARGEST * LARGEST, PLACES = 1 << 20, HEAD = 22, STREAM = HEAD + 33 * 288 + 1 };

static int passed, failed;

static void expect(int holds, const char *what) {
    if (holds) {
        passed++;
    } else {
        failed++;
        printf("failed: %s\n", what);
    }
}

/* A board of squares of so many pixels. Every cell with a positive response is a peak, so there are as many corners as
 * can be, and `radius` merges only those that several boxes found. With more than one level a seed's box is the whole
 * image, or small in a large one. */
struct frame {
    size_t side;
    unsigned square;
    uint32_t ring, levels;
    size_t least; /* so many corners at least: the tables on the stack are then those that the test is about */
};

static int exact; /* which choice a frame is run by: 0 the computed one, 1 the exact one */

struct call {
    const struct frame *frame; /* whose corners are found; NULL: zakdomp_corners reads `stream` */
    uint8_t number;
    size_t count;
    uint64_t ties;
    size_t used; /* bytes of the thread's stack */
    uint8_t *levels, *text;
    float *map, *lists[6];
    uint32_t *neighbours[2];
};

static uint8_t img[CELLS], stream[STREAM];

static const float radius = 1.0f / 64;

static void board(size_t side, unsigned square) {
    for (size_t i = 0; i < side * side; i++) img[i] = (uint8_t)(255 * ((i / side / square + i % side / square) & 1));
}

static void run(struct call *c) {
    const struct frame *f = c->frame;
    if (f == NULL) {
        c->count = zakdomp_corners(stream, STREAM, c->text);
        return;
    }
    size_t cells = f->side * f->side;
    uint32_t search = f->side <= 96 ? 255 : 1;
    float **l = c->lists;
    c->number = (exact ? zakdomp_find_exact_corners : zakdomp_find_corners)(
        img, cells, f->side, f->side, f->ring, 0, 0, 0, 0, radius, f->levels, 1, search, c->map, cells, c->levels,
        cells, l[0], PLACES, l[1], PLACES, l[2], PLACES, c->neighbours[0], PLACES, l[3], PLACES, l[4], PLACES, l[5],
        PLACES, c->neighbours[1], PLACES, &c->count, &c->ties);
}

/* Marks the thread's stack below its own frame, runs the call, and looks how far the marks are gone. */
static void *on_thread(void *call) {
    enum { MARK = 0x5a, OWN = 4 * KB };
    struct call *c = call;
    pthread_attr_t attr;
    void *bottom;
    size_t size, free_bytes, marked = 0;
    pthread_getattr_np(pthread_self(), &attr);
    pthread_attr_getstack(&attr, &bottom, &size);
    pthread_attr_destroy(&attr);
    free_bytes = (size_t)((unsigned char *)&attr - (unsigned char *)bottom) - OWN;
    memset(bottom, MARK, free_bytes);
    run(c);
    while (marked < free_bytes && ((volatile unsigned char *)bottom)[marked] == MARK) marked++;
    c->used = size - marked;
    return NULL;
}

static void *buffer(size_t bytes) {
    void *p = malloc(bytes);
    if (p == NULL) exit(2);
    return memset(p, 0x41, bytes);
}

static struct call fresh(const struct frame *f) {
    struct call c = {f, 0, 0, 0, 0, buffer(CELLS), buffer(ZAKDOMP_LONGEST), buffer(CELLS * sizeof(float)), {0}, {0}};
    for (int i = 0; i < 6; i++) c.lists[i] = buffer(PLACES * sizeof(float));
    for (int i = 0; i < 2; i++) c.neighbours[i] = buffer(PLACES * sizeof(uint32_t));
    return c;
}

static void drop(struct call *c) {
    free(c->levels);
    free(c->text);
    free(c->map);
    for (int i = 0; i < 6; i++) free(c->lists[i]);
    for (int i = 0; i < 2; i++) free(c->neighbours[i]);
}

static int same(const struct call *a, const struct call *b) {
    int s = a->number == b->number && a->count == b->count && a->ties == b->ties &&
            memcmp(a->levels, b->levels, CELLS) == 0 && memcmp(a->text, b->text, ZAKDOMP_LONGEST) == 0 &&
            memcmp(a->map, b->map, CELLS * sizeof(float)) == 0;
    for (int i = 0; i < 6; i++) s = s && memcmp(a->lists[i], b->lists[i], PLACES * sizeof(float)) == 0;
    for (int i = 0; i < 2; i++) s = s && memcmp(a->neighbours[i], b->neighbours[i], PLACES * sizeof(uint32_t)) == 0;
    return s;
}

/* Runs a call on both threads, and returns the one on the thread with so much stack; `what` says which it is. */
static struct call both(const struct frame *f, size_t stack, const char *what) {
    struct call here = fresh(f), there = fresh(f);
    pthread_attr_t attr;
    pthread_t thread;
    run(&here);
    pthread_attr_init(&attr);
    if (pthread_attr_setstacksize(&attr, stack) != 0 || pthread_create(&thread, &attr, on_thread, &there) != 0) exit(2);
    pthread_join(thread, NULL);
    pthread_attr_destroy(&attr);
    printf("%s: %zu of %zu KB\n", what, (there.used + KB - 1) / KB, stack / KB);
    expect(same(&here, &there), "the same on both threads");
    expect(there.used < stack, "some stack is left");
    drop(&here);
    return there;
}

static void frame(const struct frame *f) {
    char what[80];
    struct call c;
    board(f->side, f->square);
    snprintf(what, sizeof what, "%zu x %zu, ring %u, levels %u%s", f->side, f->side, (unsigned)f->ring,
             (unsigned)f->levels, exact ? ", exact" : "");
    c = both(f, f->side <= 96 ? SMALL : LARGE, what);
    expect(c.number == ZAKDOMP_DONE && c.count >= f->least, "as many corners as are needed");
    drop(&c);
}

/* The stream of a board of 96 by 96 pixels; `levels` 1 or more. */
static void streamed(unsigned square, uint8_t ring, uint8_t levels, const char *listing) {
    static const uint8_t bits[4] = {0, 0, 0x80, 0x3c}; /* radius */
    uint8_t head[HEAD] = {1, 96, 0, 96, 0, 2, ring, 0, 0, 0, 0, 0, 0, 0, 0, 0, 0, 0, levels, 1, 0, 255};
    struct call c;
    memcpy(head + 14, bits, 4);
    memcpy(stream, head, HEAD);
    board(96, square);
    for (size_t k = 0; k < 288; k++) {
        stream[HEAD + 33 * k] = 3;
        memcpy(stream + HEAD + 33 * k + 1, img + 32 * k, 32);
    }
    stream[STREAM - 1] = 4;
    c = both(NULL, SMALL, "zakdomp_corners");
    expect(memcmp(c.text, listing, strlen(listing)) == 0, listing);
    drop(&c);
}

int main(void) {
    static const struct frame frames[] = {
        {96, 3, 5, 1, 3000},  {96, 3, 5, 2, 2000},    {96, 3, 5, 3, 2000},   {96, 3, 10, 1, 2000},
        {96, 3, 10, 2, 1000}, {96, 3, 10, 3, 1000},   {400, 3, 5, 1, 60000}, {400, 3, 5, 2, 9000},
        {400, 3, 5, 3, 9000}, {400, 3, 10, 1, 60000}, {400, 3, 10, 2, 9000}, {400, 3, 10, 3, 9000},
    };
    for (exact = 0; exact < 2; exact++) {
        for (size_t i = 0; i < sizeof frames / sizeof *frames; i++) frame(frames + i);
    }
    streamed(9, 5, 1, "corners 400\n");
    streamed(7, 10, 1, "corners 484\n");
    streamed(12, 10, 3, "corners 100\n");
    streamed(3, 5, 2, "refused 10\n");
    printf("C, stack: %d passed, %d failed\n", passed, failed);
    return failed != 0;
}
