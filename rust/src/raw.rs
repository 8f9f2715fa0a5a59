//! The functions of libzakdomp.a as C has them. `include/zakdomp.h` says what each takes, leaves and refuses, and what
//! a caller must ensure: every slice is whole, and none overlaps another.

/// The bytes that the output of `zakdomp_corners` has.
pub const LONGEST: usize = 40_972;

/// The bytes of the longest frame stream.
pub const LONGEST_STREAM: usize = 9_527;

/// The bytes that the output of `zakdomp_holdings` has.
pub const HOLDINGS: usize = 131_081;

#[rustfmt::skip]
extern "C" {
    pub fn zakdomp_find_corners(
        img: *const u8, img_length: usize, w: usize, h: usize,
        ring: u32, threshold: f32, window: u32, least_neighbours: u32, centroid_radius: u32, merge_radius: f32,
        levels: u32, minimum_side: usize, search_radius: u32,
        map: *mut f32, map_length: usize, level_buffer: *mut u8, level_buffer_length: usize,
        sx: *mut f32, sx_length: usize, sy: *mut f32, sy_length: usize,
        ss: *mut f32, ss_length: usize, sn: *mut u32, sn_length: usize,
        cx: *mut f32, cx_length: usize, cy: *mut f32, cy_length: usize,
        cs: *mut f32, cs_length: usize, cn: *mut u32, cn_length: usize,
        count: *mut usize, ties: *mut u64,
    ) -> u8;
    pub fn zakdomp_find_exact_corners(
        img: *const u8, img_length: usize, w: usize, h: usize,
        ring: u32, threshold: f32, window: u32, least_neighbours: u32, centroid_radius: u32, merge_radius: f32,
        levels: u32, minimum_side: usize, search_radius: u32,
        map: *mut f32, map_length: usize, level_buffer: *mut u8, level_buffer_length: usize,
        sx: *mut f32, sx_length: usize, sy: *mut f32, sy_length: usize,
        ss: *mut f32, ss_length: usize, sn: *mut u32, sn_length: usize,
        cx: *mut f32, cx_length: usize, cy: *mut f32, cy_length: usize,
        cs: *mut f32, cs_length: usize, cn: *mut u32, cn_length: usize,
        count: *mut usize, ties: *mut u64,
    ) -> u8;
    pub fn zakdomp_pgm(
        upload: *const u8, upload_length: usize, at: *mut usize, width: *mut usize, height: *mut usize,
    ) -> u8;
    pub fn zakdomp_find_corners_pgm(
        upload: *const u8, upload_length: usize,
        ring: u32, threshold: f32, window: u32, least_neighbours: u32, centroid_radius: u32, merge_radius: f32,
        levels: u32, minimum_side: usize, search_radius: u32,
        map: *mut f32, map_length: usize, level_buffer: *mut u8, level_buffer_length: usize,
        sx: *mut f32, sx_length: usize, sy: *mut f32, sy_length: usize,
        ss: *mut f32, ss_length: usize, sn: *mut u32, sn_length: usize,
        cx: *mut f32, cx_length: usize, cy: *mut f32, cy_length: usize,
        cs: *mut f32, cs_length: usize, cn: *mut u32, cn_length: usize,
        count: *mut usize, ties: *mut u64,
    ) -> u8;
    pub fn zakdomp_find_exact_corners_pgm(
        upload: *const u8, upload_length: usize,
        ring: u32, threshold: f32, window: u32, least_neighbours: u32, centroid_radius: u32, merge_radius: f32,
        levels: u32, minimum_side: usize, search_radius: u32,
        map: *mut f32, map_length: usize, level_buffer: *mut u8, level_buffer_length: usize,
        sx: *mut f32, sx_length: usize, sy: *mut f32, sy_length: usize,
        ss: *mut f32, ss_length: usize, sn: *mut u32, sn_length: usize,
        cx: *mut f32, cx_length: usize, cy: *mut f32, cy_length: usize,
        cs: *mut f32, cs_length: usize, cn: *mut u32, cn_length: usize,
        count: *mut usize, ties: *mut u64,
    ) -> u8;
    pub fn zakdomp_response(
        img: *const u8, img_length: usize, w: usize, h: usize, ring: u32, x0: usize, y0: usize, x1: usize, y1: usize,
        map: *mut f32, map_length: usize, width: *mut usize, height: *mut usize,
    ) -> u8;
    pub fn zakdomp_retouch(
        img: *mut u8, img_length: usize, w: usize, h: usize, ring: u32, map: *mut f32, map_length: usize,
        x: usize, y: usize, value: u8, redone: *mut usize,
    ) -> u8;
    pub fn zakdomp_response_limits(
        low: *const u8, low_length: usize, high: *const u8, high_length: usize, w: usize, h: usize, ring: u32,
        lows: *mut i32, lows_length: usize, highs: *mut i32, highs_length: usize,
    ) -> u8;
    pub fn zakdomp_sure_peak(
        lows: *const i32, lows_length: usize, highs: *const i32, highs_length: usize, w: usize, h: usize,
        ring: u32, threshold: u32, window: u32, least_neighbours: u32, centroid_radius: u32, x: usize, y: usize,
        sure: *mut u8,
    ) -> u8;
    pub fn zakdomp_peaks(
        map: *const f32, map_length: usize, w: usize, h: usize,
        ring: u32, threshold: f32, window: u32, least_neighbours: u32, centroid_radius: u32,
        xs: *mut f32, xs_length: usize, ys: *mut f32, ys_length: usize,
        strengths: *mut f32, strengths_length: usize, neighbours: *mut u32, neighbours_length: usize,
        held: usize, added: *mut usize, ties: *mut u64,
    ) -> u8;
    pub fn zakdomp_has_peaks(
        map: *const f32, map_length: usize, w: usize, h: usize,
        ring: u32, threshold: f32, window: u32, least_neighbours: u32, centroid_radius: u32,
        wanted: usize, enough: *mut u8, rows: *mut usize,
    ) -> u8;
    pub fn zakdomp_centroid(
        map: *const f32, map_length: usize, w: usize, h: usize, centroid_radius: u32,
        x: *mut f32, y: *mut f32, mass: *mut f32,
    ) -> u8;
    pub fn zakdomp_merge(
        xs: *mut f32, xs_length: usize, ys: *mut f32, ys_length: usize,
        strengths: *mut f32, strengths_length: usize, neighbours: *mut u32, neighbours_length: usize,
        count: usize, merge_radius: f32, kept: *mut usize,
    ) -> u8;
    pub fn zakdomp_show_corner(
        xs: *const f32, xs_length: usize, ys: *const f32, ys_length: usize,
        strengths: *const f32, strengths_length: usize, neighbours: *const u32, neighbours_length: usize,
        count: usize, change: u32, place: usize,
        x: *mut f32, y: *mut f32, strength: *mut f32, neighbour_count: *mut u32, shown: *mut u32,
    ) -> u8;
    pub fn zakdomp_strike_corner(
        xs: *mut f32, xs_length: usize, ys: *mut f32, ys_length: usize,
        strengths: *mut f32, strengths_length: usize, neighbours: *mut u32, neighbours_length: usize,
        count: *mut usize, change: *mut u32, place: usize, shown: u32,
    ) -> u8;
    pub fn zakdomp_merge_apart(
        xs: *const f32, xs_length: usize, ys: *const f32, ys_length: usize,
        strengths: *const f32, strengths_length: usize, neighbours: *const u32, neighbours_length: usize,
        count: usize, merge_radius: f32,
        mx: *mut f32, mx_length: usize, my: *mut f32, my_length: usize,
        ms: *mut f32, ms_length: usize, mn: *mut u32, mn_length: usize,
        kept: *mut usize,
    ) -> u8;
    pub fn zakdomp_merge_by_table(
        xs: *mut f32, xs_length: usize, ys: *mut f32, ys_length: usize,
        strengths: *mut f32, strengths_length: usize, neighbours: *mut u32, neighbours_length: usize,
        count: usize, merge_radius: f32, table: *mut f32, table_length: usize, kept: *mut usize,
    ) -> u8;
    pub fn zakdomp_merge_naive(
        xs: *mut f32, xs_length: usize, ys: *mut f32, ys_length: usize,
        strengths: *mut f32, strengths_length: usize, neighbours: *mut u32, neighbours_length: usize,
        count: usize, merge_radius: f32, kept: *mut usize,
    ) -> u8;
    pub fn zakdomp_level_bytes(w: usize, h: usize, levels: u32, minimum_side: usize) -> usize;
    pub fn zakdomp_levels(
        img: *const u8, img_length: usize, w: usize, h: usize, levels: u32, minimum_side: usize,
        level_buffer: *mut u8, level_buffer_length: usize, built: *mut usize,
    ) -> u8;
    pub fn zakdomp_corners(input: *const u8, input_length: usize, output: *mut u8) -> usize;
    pub fn zakdomp_write_stream(
        pixels: *const u8, pixels_length: usize, w: usize, h: usize,
        ring: u32, threshold_bits: u32, window: u32, least_neighbours: u32, centroid_radius: u32,
        merge_radius_bits: u32, levels: u32, minimum_side: usize, search_radius: u32,
        stream: *mut u8, stream_length: usize, length: *mut usize,
    ) -> u8;
    pub fn zakdomp_holding(kind: u8, start: u64, time: u64, letter: *mut u8) -> u8;
    pub fn zakdomp_holdings(input: *const u8, input_length: usize, output: *mut u8) -> usize;
}
