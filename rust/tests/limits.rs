//! Pixels known between limits, over the linked library and against a second implementation.
mod common;

use common::{
    beside, border, cells, is_inside, nearest, whole_case, window, Numbers, CROSS, PLAIN, RING, SIDE,
};
use zakdomp::{raw, response, response_limits, sure_peak, Params, Refusal, ResponseLimits};

/// A number from the one up to the other.
fn between(numbers: &mut Numbers, low: u8, high: u8) -> u8 {
    low + numbers.byte(usize::from(high - low) + 1)
}

/// Any image between two.
fn image_between(numbers: &mut Numbers, low: &[u8], high: &[u8]) -> Vec<u8> {
    low.iter().zip(high).map(|(&a, &b)| between(numbers, a, b)).collect()
}

/// An image that is above another by fewer than so many levels.
fn above(numbers: &mut Numbers, low: &[u8], far: usize) -> Vec<u8> {
    low.iter().map(|&v| v.saturating_add(numbers.byte(far))).collect()
}

/// The least and the greatest of |A - B|, A and B being sums of numbers from ranges: by the ends of the range of A - B.
fn absolute(a: (i32, i32), b: (i32, i32)) -> (i32, i32) {
    let (least, most) = (a.0 - b.1, a.1 - b.0);
    let nearest = if least > 0 { least } else { (-most).max(0) };
    (nearest, least.abs().max(most.abs()))
}

/// The two numbers of a cell, by the terms of a response.
fn limits_of(low: &[u8], high: &[u8], w: usize, h: usize, ring: usize, cell: (usize, usize)) -> (i32, i32) {
    if !is_inside(cell, w, h, ring) {
        return (0, 0);
    }
    let at = |place| {
        let i = beside(w, cell, place);
        (i32::from(low[i]), i32::from(high[i]))
    };
    let scale = if ring == 10 { 2 } else { 1 };
    let s = RING.map(|(dx, dy)| at((dx * scale, dy * scale)));
    let plus = |a: (i32, i32), b: (i32, i32)| (a.0 + b.0, a.1 + b.1);
    let (mut sr, mut dr) = ((0, 0), (0, 0));
    for k in 0..4 {
        sr = plus(sr, absolute(plus(s[k], s[k + 8]), plus(s[k + 4], s[k + 12])));
    }
    for k in 0..8 {
        dr = plus(dr, absolute(s[k], s[k + 8]));
    }
    let ring = s.into_iter().fold((0, 0), plus);
    let cross = CROSS.map(at).into_iter().fold((0, 0), plus);
    let means = absolute((5 * ring.0, 5 * ring.1), (16 * cross.0, 16 * cross.1));
    (5 * sr.0 - 5 * dr.1 - means.1, 5 * sr.1 - 5 * dr.0 - means.0)
}

fn expected(low: &[u8], high: &[u8], w: usize, h: usize, ring: u32) -> ResponseLimits {
    let (lows, highs) = cells(w, h).map(|cell| limits_of(low, high, w, h, ring as usize, cell)).unzip();
    ResponseLimits { lows, highs }
}

/// Five times the exact responses of an image: the computed ones are within 1/1024.
fn fifths(image: &[u8], w: usize, h: usize, ring: u32) -> Vec<i32> {
    let map = response(image, w, h, ring, 0..w, 0..h).expect("a map");
    map.cells.iter().map(|cell| nearest(5.0 * cell)).collect()
}

#[test]
fn the_whole_case() {
    let image = whole_case();
    let low: Vec<u8> = image.iter().map(|v| v.saturating_sub(1)).collect();
    let high: Vec<u8> = image.iter().map(|v| v.saturating_add(1)).collect();
    let (mut less, mut more) = (image.clone(), image.clone());
    (less[60], more[60]) = (127, 130);
    for (low, high, numbers, most) in [
        (low, high, (9_920, 10_200), Some(1_983)),
        (less, more, (10_128, 10_176), Some(2_025)),
        (vec![0; 121], vec![255; 121], (-30_600, 10_200), None),
        (image.clone(), image.clone(), (10_160, 10_160), Some(2_031)),
    ] {
        let limits = response_limits(&low, &high, SIDE, SIDE, 5).expect("limits");
        let sure =
            |t| sure_peak(&limits.lows, &limits.highs, SIDE, SIDE, &PLAIN, t, 5, 5).expect("an answer");
        assert_eq!((0..3_000).rfind(|&t| sure(t)), most);
        assert_eq!((limits.lows[60], limits.highs[60]), numbers);
        assert!((0..121).all(|i| i == 60 || (limits.lows[i], limits.highs[i]) == (0, 0)));
    }
}

#[test]
fn as_the_second_implementation() {
    let mut numbers = Numbers(9);
    for _ in 0..200 {
        let (w, h) = (1 + numbers.below(60), 1 + numbers.below(40));
        let ring = numbers.one_of(&[5, 10]);
        let far = numbers.one_of(&[1, 2, 4, 41, 256]);
        let low = numbers.pixels(w * h, 256);
        let high = above(&mut numbers, &low, far);
        let limits = response_limits(&low, &high, w, h, ring).expect("limits");
        assert_eq!(limits, expected(&low, &high, w, h, ring));
        for _ in 0..3 {
            let exact = fifths(&image_between(&mut numbers, &low, &high), w, h, ring);
            assert!((0..w * h).all(|i| limits.lows[i] <= exact[i] && exact[i] <= limits.highs[i]));
        }
        let known = response_limits(&low, &low, w, h, ring).expect("limits");
        assert!(known.lows == known.highs && known.lows == fifths(&low, w, h, ring));
    }
}

#[test]
fn refusals_of_limits_in_their_order() {
    let (low, high) = (vec![1; 121], vec![2; 121]);
    let refused = |low: &[u8], high: &[u8], w, ring| response_limits(low, high, w, SIDE, ring).unwrap_err();
    assert_eq!(refused(&high, &low[..120], 4097, 6), Refusal::Side);
    assert_eq!(refused(&high, &low[..120], SIDE, 6), Refusal::Length);
    assert_eq!(refused(&high[..120], &low, SIDE, 6), Refusal::Length);
    assert_eq!(refused(&high, &low, SIDE, 6), Refusal::Crossed);
    assert_eq!(refused(&low, &high, SIDE, 6), Refusal::Parameter);
    let mut crossed = low.clone();
    crossed[120] = 3;
    assert_eq!(refused(&crossed, &high, SIDE, 5), Refusal::Crossed);
    assert_eq!(Refusal::Crossed.number(), 15);
    let empty = response_limits(&[], &[], 0, 0, 5).expect("an image of nothing");
    assert!(empty.lows.is_empty() && empty.highs.is_empty());
}

/// As C calls it: buffers that are longer keep their rest, and shorter ones are refused as 8.
#[test]
fn buffers_of_other_lengths() {
    let (low, high) = (vec![0; 121], vec![255; 121]);
    for (lows, highs, number) in [(121, 121, 0), (123, 122, 0), (120, 121, 8), (121, 120, 8)] {
        let (mut a, mut b) = (vec![7; lows], vec![7; highs]);
        // SAFETY: every slice is whole, and none overlaps another.
        #[rustfmt::skip]
        let told = unsafe {
            raw::zakdomp_response_limits(
                low.as_ptr(), 121, high.as_ptr(), 121, SIDE, SIDE, 5, a.as_mut_ptr(), lows, b.as_mut_ptr(), highs,
            )
        };
        assert_eq!(told, number);
        let of = |i: usize, value: i32| if number != 0 || i >= 121 { 7 } else { value * i32::from(i == 60) };
        assert!((0..lows).all(|i| a[i] == of(i, -30_600)) && (0..highs).all(|i| b[i] == of(i, 10_200)));
    }
}

/// Whether a place is a sure peak, from the words of the rule.
fn is_sure(
    lows: &[i32],
    highs: &[i32],
    w: usize,
    h: usize,
    p: &Params,
    threshold: u32,
    (x, y): (usize, usize),
) -> bool {
    if !is_inside((x, y), w, h, border(p)) {
        return false;
    }
    let around: Vec<usize> = window((x, y), p.window as usize).map(|(i, j)| j * w + i).collect();
    let low = lows[y * w + x];
    i64::from(low) > 5 * i64::from(threshold)
        && around.iter().all(|&i| highs[i] <= low)
        && around.iter().filter(|&&i| lows[i] > 0).count() >= p.least_neighbours as usize
}

#[test]
fn sure_peaks_of_any_two_maps() {
    let mut numbers = Numbers(99);
    let mut answers = [0; 2];
    for _ in 0..2000 {
        let (w, h) = (13 + numbers.below(8), 13 + numbers.below(8));
        let span = numbers.one_of(&[3, 20, 4_000_000]);
        let mut cell = || i32::try_from(numbers.below(2 * span)).unwrap() - i32::try_from(span).unwrap();
        let lows: Vec<i32> = (0..w * h).map(|_| cell()).collect();
        let mut highs: Vec<i32> = (0..w * h).map(|_| cell()).collect();
        let (x, y) = (w / 2 + numbers.below(5) - 2, h / 2 + numbers.below(5) - 2);
        if numbers.below(2) == 0 {
            for cell in &mut highs {
                *cell = (*cell).min(lows[y * w + x]);
            }
            highs[y * w + x] = i32::MAX;
        }
        let p = Params {
            window: numbers.word(3),
            least_neighbours: numbers.word(4),
            centroid_radius: numbers.word(2),
            ..Params::default()
        };
        let any = numbers.word(1 << 32);
        let threshold = numbers.one_of(&[0, 1, 3, any]);
        let sure = sure_peak(&lows, &highs, w, h, &p, threshold, x, y).expect("not refused");
        assert_eq!(sure, is_sure(&lows, &highs, w, h, &p, threshold, (x, y)));
        answers[usize::from(sure)] += 1;
    }
    assert!(answers.iter().all(|&n| n > 30), "{answers:?}");
}

#[test]
fn thresholds() {
    let image = whole_case();
    let known = response_limits(&image, &image, SIDE, SIDE, 5).expect("limits");
    for (threshold, sure) in [
        (0, true),
        (2_031, true),
        (2_032, false),
        (858_993_459, false),
        (858_993_460, false),
        (u32::MAX, false),
    ] {
        assert_eq!(sure_peak(&known.lows, &known.highs, SIDE, SIDE, &PLAIN, threshold, 5, 5), Ok(sure));
    }
    let largest = vec![i32::MAX; 121];
    assert_eq!(sure_peak(&largest, &largest, SIDE, SIDE, &PLAIN, 429_496_729, 5, 5), Ok(true));
    assert_eq!(sure_peak(&largest, &largest, SIDE, SIDE, &PLAIN, 429_496_730, 5, 5), Ok(false));
    assert_eq!(sure_peak(&largest, &largest, SIDE, SIDE, &PLAIN, 0, 4, 5), Ok(false));
}

/// A sure peak is a peak of every image between, by its exact responses.
#[test]
fn peaks_of_every_image_between() {
    let mut numbers = Numbers(28);
    let (w, h, threshold) = (15, 15, 100);
    let p = Params { window: 1, ..PLAIN };
    let mut sure = 0;
    for _ in 0..400 {
        let mut low = vec![0; w * h];
        for (pixel, (x, y)) in whole_case().into_iter().zip(cells(SIDE, SIDE)) {
            low[(y + 2) * w + x + 2] = pixel.saturating_sub(numbers.byte(30));
        }
        let far = numbers.below(12) + 1;
        let high = above(&mut numbers, &low, far);
        let limits = response_limits(&low, &high, w, h, 5).expect("limits");
        for (x, y) in cells(w, h) {
            if sure_peak(&limits.lows, &limits.highs, w, h, &p, threshold, x, y) == Ok(true) {
                sure += 1;
                for _ in 0..5 {
                    let exact = fifths(&image_between(&mut numbers, &low, &high), w, h, 5);
                    assert!(is_sure(&exact, &exact, w, h, &p, threshold, (x, y)));
                }
            }
        }
    }
    assert!(sure > 100, "{sure} sure peaks");
}

#[test]
fn refusals_of_sure_peaks_in_their_order() {
    let (map, long) = (vec![7; 121], vec![7; 122]);
    let p = Params { ring: 6, ..Params::default() };
    let wide = Params { window: 17, ..Params::default() };
    assert_eq!(sure_peak(&map, &long, 4097, SIDE, &p, 0, SIDE, 0), Err(Refusal::Side));
    assert_eq!(sure_peak(&map, &long, SIDE, SIDE, &p, 0, SIDE, 0), Err(Refusal::Length));
    assert_eq!(sure_peak(&long, &map, SIDE, SIDE, &p, 0, SIDE, 0), Err(Refusal::Length));
    assert_eq!(sure_peak(&map, &map, SIDE, SIDE, &p, 0, SIDE, 0), Err(Refusal::Parameter));
    assert_eq!(sure_peak(&map, &map, SIDE, SIDE, &wide, 0, SIDE, 0), Err(Refusal::Parameter));
    assert_eq!(sure_peak(&map, &map, SIDE, SIDE, &Params::default(), 0, SIDE, 0), Err(Refusal::Outside));
    assert_eq!(sure_peak(&map, &map, SIDE, SIDE, &Params::default(), 0, 0, SIDE), Err(Refusal::Outside));
    assert_eq!(sure_peak(&[], &[], 0, 0, &Params::default(), 0, 0, 0), Err(Refusal::Outside));
}
