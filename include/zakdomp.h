/* Zakdomp: the corners of a chessboard in a grey image. Link libzakdomp.a, which `tools/library` writes.
 *
 * Every function of the library is proved to end, and to answer and leave what is said here, for every value of its
 * numbers. Times and the stack that a call takes are tested, not proved. The caller must ensure:
 *   - a slice is a pointer and a length, in elements; the pointer is to that many elements, and is not NULL even if the
 *     length is 0; a place for a result is a pointer to one element;
 *   - no two buffers and no places for results overlap, and an image, a map or a list that is read overlaps none of
 *     them;
 *   - enough stack is free: 192 KB for images of at most 96 by 96 pixels and for zakdomp_corners, 768 KB for any call.
 * Nothing is kept between calls, so calls may run at the same time on other buffers. No function of the library
 * allocates.
 *
 * Begin with zakdomp_find or zakdomp_find_pgm at the end of this header, which allocate the buffers:
 * include/README.md has a program of ten lines. They are C over the library's functions, and are tested, not proved.
 *
 * Each function of the library but zakdomp_level_bytes, zakdomp_corners and zakdomp_holdings returns 0, or the number
 * of a refusal: the lowest that applies, unless the function says another order. A refusal leaves every buffer and
 * every place for a result as it was; the one exception is ZAKDOMP_LIST_SHORT from the four functions of the library
 * whose names begin with zakdomp_find. What follows a result in a buffer stays as it was, except that these four clear
 * the rest of map and list buffers, and zakdomp_strike_corner clears the one place that it frees.
 *
 * An image of w by h pixels is w * h bytes, row after row from the top, with nothing between rows: the pixel of column
 * x and row y, both from 0, is at y * w + x. A map has a response for each pixel of its image or box, in the same
 * order. The window of a cell, of radius r, is the cells at most r columns and r rows away, without the cell itself, as
 * far as the map goes. Coordinates count in pixels, and (0, 0) is the middle of the first one.
 *
 * Corners are held in four slices: columns, rows, strengths, and neighbours, which are the cells above 0 in the window
 * of the peak that became the corner, the peak not counted. The shortest of the four says how many places there are. */
#ifndef ZAKDOMP_H
#define ZAKDOMP_H

#include <stddef.h>
#include <stdint.h>
#ifndef ZAKDOMP_BARE /* define it if there is no malloc: the helpers at the end are then left out */
#include <stdlib.h>
#endif

/* The version of this header and of the library, as semantic versioning counts; CHANGELOG.md says what each brought. */
#define ZAKDOMP_VERSION "0.2.0"

#ifdef __cplusplus
extern "C" {
#endif

enum {
    ZAKDOMP_DONE = 0,
    ZAKDOMP_SIDE = 1,         /* a side is above 4096, in a stream above 96 */
    ZAKDOMP_LENGTH = 2,       /* the length of an image or of a map is not width * height */
    ZAKDOMP_PARAMETER = 3,    /* ring, window, centroid_radius or search_radius out of range; too wide for a stream */
    ZAKDOMP_COORDINATE = 4,   /* a corner to be merged is not within 0..4096, or a seed not within 1000000 either way */
    ZAKDOMP_MERGE_RADIUS = 5, /* the merge radius is finite and positive, but not within 1/64..4096 */
    ZAKDOMP_KIND = 6,         /* there is no such kind of item, or of record in a stream */
    ZAKDOMP_MAP_SHORT = 8,    /* the map buffer is too short */
    ZAKDOMP_LEVELS_SHORT = 9, /* the level buffer is too short */
    ZAKDOMP_LIST_SHORT = 10,  /* the corners do not fit their buffer, or a count is above the buffer's places */
    ZAKDOMP_PGM = 12,         /* the header of a photograph is not of the form P5, or too few bytes follow it */
    ZAKDOMP_MAXVAL = 13,      /* the maxval of a photograph is not 255 */
    ZAKDOMP_OUTSIDE = 14,     /* the place is outside the image */
    ZAKDOMP_CROSSED = 15,     /* a pixel's low value is above its high one */
    ZAKDOMP_CHANGED = 16,     /* the change number differs from the list's */
    ZAKDOMP_BEYOND = 17,      /* the place is beyond the list */
    ZAKDOMP_LARGEST = 18,     /* the list's change number is the largest, 2^32 - 1 */
    ZAKDOMP_STREAM_SHORT = 19, /* the stream buffer is too short */
    ZAKDOMP_LATE = 20          /* a start or a time is above 2^40 */
};

/* The corners of an image of w by h pixels. Levels are built: the image, and from each level the next of half its
 * sides. With one level the corners are those of the image's map. With more, seeds are found on the last level, and the
 * corners are those of the map of a box in the image around each seed's place, one seed after the other; a seed too
 * near the edge has no box. The corners of a map are in row order, and merging keeps the order of the places.
 *   ring              5 or 10: the ring's radius
 *   threshold         no peak has a response at or below it; NaN and negative numbers count as 0
 *   window            0..16: the radius of a peak's window, in which no cell has a larger response than the peak
 *   least_neighbours  the least number of cells of the window that have a response above 0
 *   centroid_radius   0..16: a peak moves to its centre of mass, as zakdomp_centroid computes it with this radius
 *   merge_radius      1/64..4096: corners are merged as zakdomp_merge does; 0, negative or not finite: all are kept
 *   levels            the largest number of levels built, the image included; 0: none, and so no corners
 *   minimum_side      no level above the image has a side of 0, or below this; if the image has a side below it, there
 *                     are no levels, and so no corners
 *   search_radius     0..255: how far around a seed is searched, in pixels of its level, but never less than ring +
 *                     window + centroid_radius + 2 in the image
 * Buffers:
 *   map             at least w * h floats; all 0 at the end
 *   level_buffer    at least zakdomp_level_bytes(w, h, levels, minimum_side) bytes; the levels above the image come
 *                   first in it, and the rest stays
 *   sx, sy, ss, sn  a place for each seed; the seeds come first, in the last level's columns and rows, and the rest is
 *                   0. The time grows with the number of seeds times the cells of their boxes, so these places bound
 *                   it: if the seeds do not fit, 10 is returned before any box is searched
 *   cx, cy, cs, cn  a place for each corner before merging; the corners come first, and the rest is 0
 *   count           the number of corners
 *   ties            how often a cell of a peak's window has the peak's response, over all peaks found before merging;
 *                   seeds do not count, and a peak that is found around two seeds counts twice
 * Refusals: 1, 2, 3, 5, 8, 9, 10. After 10 all buffers are 0 in their whole length, and count and ties are as they
 * were. */
uint8_t zakdomp_find_corners(const uint8_t *img, size_t img_length, size_t w, size_t h, uint32_t ring, float threshold,
                             uint32_t window, uint32_t least_neighbours, uint32_t centroid_radius, float merge_radius,
                             uint32_t levels, size_t minimum_side, uint32_t search_radius, float *map,
                             size_t map_length, uint8_t *level_buffer, size_t level_buffer_length, float *sx,
                             size_t sx_length, float *sy, size_t sy_length, float *ss, size_t ss_length, uint32_t *sn,
                             size_t sn_length, float *cx, size_t cx_length, float *cy, size_t cy_length, float *cs,
                             size_t cs_length, uint32_t *cn, size_t cn_length, size_t *count, uint64_t *ties);

/* The corners of an image by the exact choice. All is as with zakdomp_find_corners, except that the peaks of each map,
 * that of the seeds included, are chosen by exact responses, which are those without rounding: a peak's is above the
 * threshold, no cell of its window has a larger one, and `least_neighbours` cells of the window have one above 0.
 * Strengths, centres of mass, boxes and merging are the computed ones. If both calls leave the same list, choosing by
 * rounded responses has made no difference to it.
 *   ties  as there, by the floats: a peak that has a larger float in its window, of the same exact response, counts 0
 * Arguments, buffers and refusals are as there. The two calls can find different numbers of seeds, or of corners before
 * merging, so that 10 may be the answer of one of them only. */
uint8_t zakdomp_find_exact_corners(const uint8_t *img, size_t img_length, size_t w, size_t h, uint32_t ring,
                                   float threshold, uint32_t window, uint32_t least_neighbours,
                                   uint32_t centroid_radius, float merge_radius, uint32_t levels, size_t minimum_side,
                                   uint32_t search_radius, float *map, size_t map_length, uint8_t *level_buffer,
                                   size_t level_buffer_length, float *sx, size_t sx_length, float *sy, size_t sy_length,
                                   float *ss, size_t ss_length, uint32_t *sn, size_t sn_length, float *cx,
                                   size_t cx_length, float *cy, size_t cy_length, float *cs, size_t cs_length,
                                   uint32_t *cn, size_t cn_length, size_t *count, uint64_t *ties);

/* Where the pixels of an uploaded photograph are: binary PGM, the form P5 of Netpbm's description (pgm(5), and pbm(5)
 * on comments).
 *   at             where they begin in the upload: width * height bytes, in row order
 *   width, height  the sides, 0 included
 * The upload begins with P5. Then come width, height and maxval in decimal, whitespace before each, and one whitespace
 * character before the pixels. Whitespace is space, TAB, LF, VT, FF and CR. After P5 and before that one character a
 * comment, from # through the next CR or LF, is ignored wherever it is, and is no whitespace. What follows the pixels
 * is not looked at.
 * Refusals, in this order: 1, if both sides can be read, whatever follows them; 12; 13. */
uint8_t zakdomp_pgm(const uint8_t *upload, size_t upload_length, size_t *at, size_t *width, size_t *height);

/* The corners of an uploaded photograph: what zakdomp_find_corners leaves for its pixels and sides. The sides, which
 * the buffers' lengths depend on, come from zakdomp_pgm.
 * Refusals: 1, 12 and 13 for the upload, which change nothing; then 3, 5, 8, 9, 10 as there. */
uint8_t zakdomp_find_corners_pgm(const uint8_t *upload, size_t upload_length, uint32_t ring, float threshold,
                                 uint32_t window, uint32_t least_neighbours, uint32_t centroid_radius,
                                 float merge_radius, uint32_t levels, size_t minimum_side, uint32_t search_radius,
                                 float *map, size_t map_length, uint8_t *level_buffer, size_t level_buffer_length,
                                 float *sx, size_t sx_length, float *sy, size_t sy_length, float *ss, size_t ss_length,
                                 uint32_t *sn, size_t sn_length, float *cx, size_t cx_length, float *cy,
                                 size_t cy_length, float *cs, size_t cs_length, uint32_t *cn, size_t cn_length,
                                 size_t *count, uint64_t *ties);

/* The corners of an uploaded photograph by the exact choice: what zakdomp_find_exact_corners leaves for its pixels and
 * sides.
 * Refusals: as those of zakdomp_find_corners_pgm. */
uint8_t zakdomp_find_exact_corners_pgm(const uint8_t *upload, size_t upload_length, uint32_t ring, float threshold,
                                       uint32_t window, uint32_t least_neighbours, uint32_t centroid_radius,
                                       float merge_radius, uint32_t levels, size_t minimum_side, uint32_t search_radius,
                                       float *map, size_t map_length, uint8_t *level_buffer, size_t level_buffer_length,
                                       float *sx, size_t sx_length, float *sy, size_t sy_length, float *ss,
                                       size_t ss_length, uint32_t *sn, size_t sn_length, float *cx, size_t cx_length,
                                       float *cy, size_t cy_length, float *cs, size_t cs_length, uint32_t *cn,
                                       size_t cn_length, size_t *count, uint64_t *ties);

/* The responses of the cells in the columns x0 up to, not including, x1 of the rows y0 up to, not including, y1. The
 * box is clipped to the image. Within a ring radius of the image's edge a response is 0.
 *   map            at least as many floats as the clipped box has cells; they come first in it, in row order
 *   width, height  the sides of the clipped box, both 0 if it is empty
 * Refusals: 1, 2, 3, 8. */
uint8_t zakdomp_response(const uint8_t *img, size_t img_length, size_t w, size_t h, uint32_t ring, size_t x0, size_t y0,
                         size_t x1, size_t y1, float *map, size_t map_length, size_t *width, size_t *height);

/* Changes the pixel of column x and row y to `value`, and computes again those cells of the image's map that are not
 * within a ring radius of the edge and whose sixteen or five samples contain the pixel: at most 21. If the map was that
 * of the whole image with that ring, image and map are then as after a new call of zakdomp_response; any other map gets
 * those cells and no more. The time does not grow with the image.
 *   img     changed in place
 *   map     exactly w * h floats, in row order; the cells are changed in place
 *   redone  how many cells were computed again
 * Refusals: 1, 2 (the length of the image or of the map), 3, 14. */
uint8_t zakdomp_retouch(uint8_t *img, size_t img_length, size_t w, size_t h, uint32_t ring, float *map,
                        size_t map_length, size_t x, size_t y, uint8_t value, size_t *redone);

/* What the response of each cell of an image of w by h can be, if each pixel is known to lie from its value in `low` up
 * to its value in `high`: a low and a high number of fifths. Five times the exact response, which is whole, of every
 * image between the two lies from the one up to the other; if low and high are the same image, both are that number.
 *   low, high    the two images, in row order
 *   ring         5 or 10: the ring's radius
 *   lows, highs  at least w * h numbers each; those of the cells come first, in row order: -30600..10200, and 0 within
 *                a ring radius of the edge
 * Each absolute value in the sum of a response is taken at its least or greatest over the values that its own pixels
 * can have, term by term.
 * Refusals, in this order: 1, 2 (the length of either image), 15, 3, 8 (either buffer). */
uint8_t zakdomp_response_limits(const uint8_t *low, size_t low_length, const uint8_t *high, size_t high_length,
                                size_t w, size_t h, uint32_t ring, int32_t *lows, size_t lows_length, int32_t *highs,
                                size_t highs_length);

/* Whether the place of column x and row y is a sure peak: with the maps that zakdomp_response_limits made with that
 * ring, it is then a peak, by exact values and at that threshold, of every image between the two.
 *   lows, highs  exactly w * h numbers each; of longer buffers pass the first w * h, with w * h as the length
 *   threshold    a whole response
 *   window, least_neighbours, centroid_radius  as in zakdomp_find_corners
 *   sure         1 for yes, 0 for no. Yes: the place is not within ring + window + centroid_radius of the map's edge,
 *                its low number exceeds five times the threshold and is at least the high number of every cell of its
 *                window, and at least `least_neighbours` of those have a low number above 0. The answer depends on
 *                these numbers alone, whoever made the two maps.
 * Refusals: 1, 2 (the length of either map), 3, 14. */
uint8_t zakdomp_sure_peak(const int32_t *lows, size_t lows_length, const int32_t *highs, size_t highs_length, size_t w,
                          size_t h, uint32_t ring, uint32_t threshold, uint32_t window, uint32_t least_neighbours,
                          uint32_t centroid_radius, size_t x, size_t y, uint8_t *sure);

/* The peaks of a map of w by h responses, put after the first `held` corners of a buffer, in row order. The parameters
 * are those of zakdomp_find_corners; no peak lies within ring + window + centroid_radius of the map's edge. A NaN cell
 * is not at or below any threshold and is beaten by none, so inside that border it is a peak if it has enough positive
 * neighbours.
 *   added  the number of peaks
 *   ties   how often a cell of a peak's window has the peak's value; NaN equals nothing
 * Refusals: 1, 2, 3, 10. */
uint8_t zakdomp_peaks(const float *map, size_t map_length, size_t w, size_t h, uint32_t ring, float threshold,
                      uint32_t window, uint32_t least_neighbours, uint32_t centroid_radius, float *xs, size_t xs_length,
                      float *ys, size_t ys_length, float *strengths, size_t strengths_length, uint32_t *neighbours,
                      size_t neighbours_length, size_t held, size_t *added, uint64_t *ties);

/* Whether a map of w by h responses has at least `wanted` peaks, which are those of zakdomp_peaks. It is searched in
 * row order, and no further than the last peak that is needed.
 *   enough  1 for yes, 0 for no
 *   rows    how many rows were looked at: from the first row inside the border, ring + window + centroid_radius, to
 *           that of the last peak needed, both included; all rows inside the border if there are fewer peaks; 0 if
 *           `wanted` is 0 or a side is at most twice the border
 * Refusals: 1, 2, 3. */
uint8_t zakdomp_has_peaks(const float *map, size_t map_length, size_t w, size_t h, uint32_t ring, float threshold,
                          uint32_t window, uint32_t least_neighbours, uint32_t centroid_radius, size_t wanted,
                          uint8_t *enough, size_t *rows);

/* The centre of mass of the positive cells of a map within `centroid_radius` columns and rows of a seed's cell, which
 * counts too. It is the cell nearest to the seed; a half is rounded away from 0.
 *   centroid_radius  0..16
 *   x, y             the seed, and then the centre of mass; the seed stays if the cells do not all lie in the map or
 *                    none is positive
 *   mass             the sum of the positive cells; 0 if the seed stays
 * In a map that zakdomp_response made, with a radius of at most 2 and if mass is above 0, x and y are within 1/32 of
 * those by exact responses.
 * Refusals: 1, 2, 3, 4. */
uint8_t zakdomp_centroid(const float *map, size_t map_length, size_t w, size_t h, uint32_t centroid_radius, float *x,
                         float *y, float *mass);

/* Merges the first `count` corners of a buffer in place. Each corner in turn looks among those kept, in its own cell of
 * a grid of `merge_radius` and the eight around it, for the first at most `merge_radius` away. It takes that one's
 * place, with its own neighbours, if it is strictly stronger, and is dropped if not; if there is none, it is kept after
 * the others. So two that are kept may still be near each other: (0, 0; 1), (5, 0; 2), (2.5, 0; 3) at radius 3 leaves
 * (2.5, 0; 3) and (5, 0; 2). A radius that is 0, negative or not finite keeps all.
 * Its time grows with `count` if at most 131072 corners are kept, or if they come row by row, as those of one map do.
 * Otherwise it grows with the square of the number kept. zakdomp_merge_by_table has no such limit.
 *   kept  the number of corners that are left
 * Refusals: 4 for the counted corners that the buffer has, 5, 10; 10 alone if the radius keeps all. */
uint8_t zakdomp_merge(float *xs, size_t xs_length, float *ys, size_t ys_length, float *strengths,
                      size_t strengths_length, uint32_t *neighbours, size_t neighbours_length, size_t count,
                      float merge_radius, size_t *kept);

/* Shows a corner of a list, so that it can be struck. The list is the first `count` corners of a buffer of four slices,
 * columns, rows, strengths and neighbours, and has a change number, which its owner keeps with its count: 0 for a new
 * list, and raised by each strike and by nothing else.
 *   change           the list's change number, which may be any
 *   place            counts from 0
 *   x, y, strength, neighbour_count  the corner
 *   shown            the list's change number
 * Refusals: 10, 17. */
uint8_t zakdomp_show_corner(const float *xs, size_t xs_length, const float *ys, size_t ys_length,
                            const float *strengths, size_t strengths_length, const uint32_t *neighbours,
                            size_t neighbours_length, size_t count, uint32_t change, size_t place, float *x, float *y,
                            float *strength, uint32_t *neighbour_count, uint32_t *shown);

/* Strikes the corner at a place of a list, named with the change number with which it was shown. In each slice the
 * later corners move up, the freed last place becomes 0, and what follows it stays. If nothing but calls of this
 * function came between, refused or not, a call that is not refused removes the very corner that was shown for that
 * place and number.
 *   count   the number of corners; one less afterwards
 *   change  the list's change number; one more afterwards
 *   shown   the change number that was shown
 * Refusals, in this order: 10; 16 if `shown` is not the list's change number, as after another strike; 17; 18. */
uint8_t zakdomp_strike_corner(float *xs, size_t xs_length, float *ys, size_t ys_length, float *strengths,
                              size_t strengths_length, uint32_t *neighbours, size_t neighbours_length, size_t *count,
                              uint32_t *change, size_t place, uint32_t shown);

/* What zakdomp_merge would leave of the first `count` corners of a buffer, written into a separate buffer: so that
 * several radii can be tried. The corners are only read. List, number of corners and refusal are those of zakdomp_merge
 * for the same corners and radius; besides, a count that does not fit the separate buffer is refused as 10, however few
 * corners would be left. Its time is that of zakdomp_merge, with the same limit of 131072.
 *   mx, my, ms, mn  the separate buffer, with a place for each of the `count` corners; the list comes first in it, and
 *                   the rest stays
 *   kept            the number of corners that are left
 * Refusals: 4, 5, 10, as those of zakdomp_merge. 4 is for the counted corners that their own buffer has. */
uint8_t zakdomp_merge_apart(const float *xs, size_t xs_length, const float *ys, size_t ys_length,
                            const float *strengths, size_t strengths_length, const uint32_t *neighbours,
                            size_t neighbours_length, size_t count, float merge_radius, float *mx, size_t mx_length,
                            float *my, size_t my_length, float *ms, size_t ms_length, uint32_t *mn, size_t mn_length,
                            size_t *kept);

/* zakdomp_merge with a table, the index of the kept corners: corners, number and refusals are those of zakdomp_merge
 * for the same corners and radius, whatever the length of the table. With 2 * `count` + 2 floats or more the time grows
 * with `count`, in whatever order the corners come, and at most 4 * `count` + 4 are used. A table with fewer than
 * 2 * `count` + 2 floats and fewer than 131072 is only cleared.
 *   table  its contents before do not matter; afterwards it is 0 in its whole length, and as it was if refused
 *   kept   the number of corners that are left
 * Refusals: 4, 5, 10, as those of zakdomp_merge. */
uint8_t zakdomp_merge_by_table(float *xs, size_t xs_length, float *ys, size_t ys_length, float *strengths,
                               size_t strengths_length, uint32_t *neighbours, size_t neighbours_length, size_t count,
                               float merge_radius, float *table, size_t table_length, size_t *kept);

/* Merges the first `count` corners of a buffer in place, as zakdomp_merge, but by distance alone, without cells: each
 * corner in turn looks among all that are kept for the first at most `merge_radius` away. It leaves what zakdomp_merge
 * leaves if the coordinates are multiples of 1/64 and the radius is a power of two from 1/64 to 4096. Otherwise the two
 * may differ: of (0.99999994, 0), (2, 0), (0, 100) at radius 1 it leaves two, and zakdomp_merge all three. Its time
 * grows with `count` times `kept`, so with the square of `count` if few are dropped; the frame merges by cells.
 *   kept  the number of corners that are left
 * Refusals: 4, 5, 10, as those of zakdomp_merge. */
uint8_t zakdomp_merge_naive(float *xs, size_t xs_length, float *ys, size_t ys_length, float *strengths,
                            size_t strengths_length, uint32_t *neighbours, size_t neighbours_length, size_t count,
                            float merge_radius, size_t *kept);

/* How many bytes the level buffer of an image of w by h pixels needs; for sides so large that no size_t holds that
 * number, the largest size_t. */
size_t zakdomp_level_bytes(size_t w, size_t h, uint32_t levels, size_t minimum_side);

/* The levels above an image, one after the other, at the start of `level_buffer`. Each has half the sides of the one
 * before, without an odd last column or row; a pixel is the mean of four, rounded, halves up. levels and minimum_side
 * are those of zakdomp_find_corners.
 *   built  the number of levels, the image included
 * Refusals: 1, 2, 9. */
uint8_t zakdomp_levels(const uint8_t *img, size_t img_length, size_t w, size_t h, uint32_t levels, size_t minimum_side,
                       uint8_t *level_buffer, size_t level_buffer_length, size_t *built);

/* What the program `corners` prints for a frame stream of at most 96 by 96 pixels, at the start of `output`, which has
 * ZAKDOMP_LONGEST bytes. For a refused stream it is the line `refused N`, with a number as above, 7 for a stream that is
 * cut short or has padding that is not 0, or 11 for a record out of order. Returns the length of the text. */
#define ZAKDOMP_LONGEST 40972
size_t zakdomp_corners(const uint8_t *input, size_t input_length, uint8_t *output);

/* Writes the frame stream of an image of w by h pixels, at most 96 by 96, to the start of `stream`. It is the one
 * stream that zakdomp_corners reads as these sides, parameters and pixels. The parameters are those of
 * zakdomp_find_corners; threshold and merge radius are given as their 32 bits, so that a NaN keeps its pattern. The
 * fields of `least_neighbours`, `levels` and `search_radius` have one byte each, and that of `minimum_side` has two: a
 * larger value is refused as 3.
 *   stream  at least 23 bytes and 33 for each 32 pixels, the last ones included: no stream is longer than 9527 bytes
 *   length  the length of the stream
 * Refusals: 1, 2, 3, 5, 19. */
uint8_t zakdomp_write_stream(const uint8_t *pixels, size_t pixels_length, size_t w, size_t h, uint32_t ring,
                             uint32_t threshold_bits, uint32_t window, uint32_t least_neighbours,
                             uint32_t centroid_radius, uint32_t merge_radius_bits, uint32_t levels, size_t minimum_side,
                             uint32_t search_radius, uint8_t *stream, size_t stream_length, size_t *length);

/* Whether an item is held at a time; both are seconds, and a day is seconds div 86400.
 *   kind    1 a corner file: held from receipt on; 2 a photograph: held on the day of receipt and the 89 days after it;
 *           3 a token: held for 604800 seconds
 *   start   the second of receipt or issue; before it an item is not yet there
 *   letter  'N' not yet, 'H' held, 'G' gone
 * Refusals: 6, 20. */
uint8_t zakdomp_holding(uint8_t kind, uint64_t start, uint64_t time, uint8_t *letter);

/* What the program `retained` prints for a stream of items, at the start of `output`, which has ZAKDOMP_HOLDINGS bytes.
 * The stream is eight bytes of time and then at most 65536 records, each a byte of kind and eight bytes of the start,
 * little-endian; bytes after those are not read. The text has the letter of each item on a line of its own. A faulty
 * record, or a faulty time, ends it with the line `refused N`, with 6 for an unknown kind, 7 for bytes that are missing
 * and 20 for a time or a start above 2^40. Returns the length of the text. */
#define ZAKDOMP_HOLDINGS 131081
size_t zakdomp_holdings(const uint8_t *input, size_t input_length, uint8_t *output);

#ifndef ZAKDOMP_BARE
/* What to look for: the parameters of zakdomp_find_corners, with the names that they have there, and the choice. */
typedef struct zakdomp_params {
    uint32_t ring;
    float threshold;
    uint32_t window, least_neighbours, centroid_radius;
    float merge_radius;
    uint32_t levels;
    size_t minimum_side;
    uint32_t search_radius;
    int exact; /* 0: zakdomp_find_corners; else zakdomp_find_exact_corners */
} zakdomp_params;

/* The corners that were found, `count` in each list. It begins as {0}, and keeps its memory for its next call. */
typedef struct zakdomp_lists {
    float *x, *y, *strength;
    uint32_t *neighbours;
    size_t count;
    uint64_t ties;
    void *memory; /* every buffer of a call; the lists point into it */
    size_t memory_bytes;
} zakdomp_lists;

#define ZAKDOMP_NO_MEMORY 255

/* The defaults, which are those of Rust and Python too: ring 5, threshold 0, window 2, least_neighbours 2,
 * centroid_radius 2, merge_radius 3, levels 1, minimum_side 1, search_radius 3, the computed choice. For a photograph
 * the threshold should be set; 300 is a good start (docs/PHOTOGRAPHS.md). */
static inline zakdomp_params zakdomp_params_default(void) {
    const zakdomp_params params = {5, 0, 2, 2, 2, 3, 1, 1, 3, 0};
    return params;
}

/* Frees the memory of the lists, which are then empty and can be used again. */
static inline void zakdomp_free(zakdomp_lists *found) {
    const zakdomp_lists empty = {NULL, NULL, NULL, NULL, 0, 0, NULL, 0};
    free(found->memory);
    *found = empty;
}

/* Makes the buffers of zakdomp_find, a map, seeds, corners and levels, in this order, and sets the lists to the
 * corners' places. Returns the map, or NULL if there is no memory. */
static inline float *zakdomp_make_buffers(zakdomp_lists *found, size_t cells, size_t seeds, size_t places,
                                          size_t level_bytes) {
    const size_t needed = (cells + 4 * seeds + 4 * places + 1) * sizeof(float) + level_bytes;
    if (found->memory_bytes < needed) {
        zakdomp_free(found);
        found->memory = calloc(needed, 1);
        if (found->memory == NULL) return NULL;
        found->memory_bytes = needed;
    }
    found->x = (float *)found->memory + cells + 4 * seeds;
    found->y = found->x + places;
    found->strength = found->y + places;
    found->neighbours = (uint32_t *)(void *)(found->strength + places);
    return (float *)found->memory;
}

/* The corners of an image of w by h pixels, in lists that are made as long as they have to be. They stay until the next
 * call with the same struct, or zakdomp_free. If it is refused, count and ties are 0. Nothing bounds the number of
 * seeds, and so the time: for images from strangers, more than one level and a large search radius, call
 * zakdomp_find_corners with lists of your own.
 *   img     w * h pixels, in row order
 *   params  those of zakdomp_params_default, changed or not
 * Refusals: 1, 3, 5, and ZAKDOMP_NO_MEMORY, which is 255, if there is no memory for the buffers. */
static inline uint8_t zakdomp_find(const uint8_t *img, size_t w, size_t h, const zakdomp_params *params,
                                   zakdomp_lists *found) {
    const int fits = w <= 4096 && h <= 4096; /* else it is refused as 1, before a buffer is looked at */
    const size_t cells = fits ? w * h : 0, step = (size_t)params->window + 1;
    const size_t level_bytes = fits ? zakdomp_level_bytes(w, h, params->levels, params->minimum_side) : 0;
    size_t places = fits ? (w / step + 1) * (h / step + 1) : 1; /* enough on one level, but for equal peaks */
    uint8_t refused;
    found->count = 0;
    found->ties = 0;
#define ZAKDOMP_ARGUMENTS                                                                                           \
    img, cells, w, h, params->ring, params->threshold, params->window, params->least_neighbours,                    \
        params->centroid_radius, params->merge_radius, params->levels, params->minimum_side, params->search_radius, \
        map, cells, (uint8_t *)(found->neighbours + places), level_bytes, sx, seeds, sx + seeds, seeds,             \
        sx + 2 * seeds, seeds, (uint32_t *)(void *)(sx + 3 * seeds), seeds, found->x, places, found->y, places,     \
        found->strength, places, found->neighbours, places, &found->count, &found->ties
    do {
        const size_t seeds = params->levels > 1 ? places : 0;
        float *const map = zakdomp_make_buffers(found, cells, seeds, places, level_bytes);
        if (map == NULL) return ZAKDOMP_NO_MEMORY;
        float *const sx = map + cells;
        refused =
            params->exact ? zakdomp_find_exact_corners(ZAKDOMP_ARGUMENTS) : zakdomp_find_corners(ZAKDOMP_ARGUMENTS);
        places *= 4;
    } while (refused == ZAKDOMP_LIST_SHORT);
#undef ZAKDOMP_ARGUMENTS
    return refused;
}

/* The same for an uploaded photograph, the bytes of a binary PGM file.
 * Refusals: 1, 12 and 13 for the upload; then as zakdomp_find. */
static inline uint8_t zakdomp_find_pgm(const uint8_t *upload, size_t length, const zakdomp_params *params,
                                       zakdomp_lists *found) {
    size_t at = 0, w = 0, h = 0;
    const uint8_t refused = zakdomp_pgm(upload, length, &at, &w, &h);
    found->count = 0;
    found->ties = 0;
    return refused ? refused : zakdomp_find(upload + at, w, h, params, found);
}
#endif

#ifdef __cplusplus
}
#endif

#endif
