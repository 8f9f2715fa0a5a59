//! oracle_cases: the worked cases (RULES 14), refusals by number, and the oracle's checks of itself: its merge
//! without a grid against the original merge, its pass against the original orchestrator, and that the sample shows
//! each wrong road.
use oracle::buffers::{same_list, Buffers};
use oracle::centroid::{refine, Map};
use oracle::exact::{fifths_map, EXACT};
use oracle::frame::{by_orchestrator, find_corners, with_lists};
use oracle::generate::frames::{frame, Shape};
use oracle::generate::images::{around_centre, whole_case};
use oracle::generate::{hunted, refused_frames, refused_streams, Rng};
use oracle::image::{Area, Image};
use oracle::merge::{by_cell_numbers, original};
use oracle::params::{Params, PLAIN};
use oracle::pass::{View, STEPS};
use oracle::program::{corners, CORNERS};
use oracle::refusal::{number_of, LARGEST_SIDE};
use oracle::sample::{merges, peaks, SEED};
use oracle::search_box::search_box;
use oracle::stream::{write, Upload};
use oracle::tally::Tally;
use oracle::{pyramid, wrong, Corner, ResponseMap};
use std::process::ExitCode;

fn pyramid_cases(tally: &mut Tally) {
    let half = |pixels: &[u8], width, height| {
        let mut buffer = [0; 2];
        let built = pyramid::build(Image { pixels, width, height }, 2, 0, &mut buffer);
        (built, buffer)
    };
    tally.same("P: 0,0,0,1", half(&[0, 0, 0, 1], 2, 2), (Ok(2), [0, 0]));
    tally.same("P: 0,0,1,1", half(&[0, 0, 1, 1], 2, 2), (Ok(2), [1, 0]));
    tally.same("P: four 255", half(&[255; 4], 2, 2), (Ok(2), [255, 0]));
    tally.same("P: 5 by 3 halves to 2 by 1", half(&[9; 15], 5, 3), (Ok(2), [9, 9]));
    let empty = Image { pixels: &[], width: 0, height: 0 };
    tally.same("P: base 0 by 0", pyramid::build(empty, 1, 0, &mut []), Ok(1));
}

/// The computed and the exact response in the middle of 11 by 11 pixels.
fn centre(pixels: &[u8]) -> (f32, i32) {
    let image = Image { pixels, width: 11, height: 11 };
    let view = View { image, area: Area { x0: 5, y0: 5, x1: 6, y1: 6 } };
    (view.map(5).at(0, 0), fifths_map(&view, 5)[0])
}

fn response_cases(tally: &mut Tally) {
    tally.same("P: flat 100", centre(&[100; 121]), (0.0, 0));
    tally.same("P: the whole case's centre", centre(&whole_case()), (2032.0, 10_160));
    let mut brighter = whole_case();
    brighter[60] = 129;
    tally.same("P: cross sum 641", centre(&brighter).1, 10_144);
    let (mut high, mut low) = ([100u8; 16], [2u8; 16]);
    for k in [0, 8] {
        (high[k], high[k + 4]) = (102, 98);
        (low[k], low[k + 4]) = (4, 0);
    }
    let high = centre(&around_centre(&high, &[101, 100, 100, 100, 100], 5));
    let low = centre(&around_centre(&low, &[3, 2, 2, 2, 2], 5));
    tally.same("Run: both 24 fifths", (high.1, low.1), (24, 24));
    tally.check("Run: the first float larger", high.0 > low.0);
}

fn box_cases(tally: &mut Tally) {
    let params = Params { window: 2, centroid: 2, search: 3, ..PLAIN };
    let at = |x, y| search_box(200, 200, 1, &params, x, y);
    let first = Area { x0: 89, y0: 69, x1: 112, y1: 92 };
    tally.same("P: seed (50,40)", at(50.0, 40.0), Ok(Some(first)));
    tally.same("P: seed (7.5,50)", at(7.5, 50.0), Ok(None));
    let sides = at(8.0, 50.0).map(|found| found.map(|area| (area.x0, area.x1)));
    tally.same("P: seed (8,50)", sides, Ok(Some((9, 28))));
}

fn whole_cases(tally: &mut Tally) {
    let params = Params { merge: 3.0, minimum: 1, ..PLAIN };
    let upload = Upload { width: 11, height: 11, params, pixels: whole_case() };
    let due = "corners 1\n1280 1280 40a00000 40a00000 44fe0000 0\n";
    tally.same("whole case", corners(&write(&upload)).as_str(), due);
    let run = merges::run_case();
    let list = run.buffer.list(run.count);
    tally.same("Run: all three stay", original(&list, run.radius).len(), 3);
    tally.same("Run: by distance alone two", wrong::merge_by_distance(&list, run.radius).len(), 2);
}

fn refusal_cases(tally: &mut Tally) {
    for case in refused_streams::cases() {
        tally.same(case.name, number_of(&CORNERS.run(&case.stream).0), case.number);
    }
    for case in refused_frames::cases() {
        let buffers = Buffers::before(&case.sizes);
        for steps in [&STEPS, &EXACT] {
            let answer = find_corners(case.image(), &case.params, &mut buffers.clone(), LARGEST_SIDE, steps);
            tally.same(case.name, number_of(&answer), case.number);
        }
    }
}

/// A list on a coarse or fine grid of places, so that corners meet the borders of cells.
fn random_list(rng: &mut Rng) -> Vec<Corner> {
    let step = rng.pick(&[1.0f32, 0.5, 0.25, 1.0 / 64.0, 0.0]);
    let span = rng.pick(&[4.0, 20.0, 90.0]);
    let length = rng.below(24);
    let mut coordinate = || {
        let v = (rng.unit() * span) as f32;
        if step > 0.0 {
            (v / step).floor() * step
        } else {
            v
        }
    };
    let places: Vec<(f32, f32)> = (0..length).map(|_| (coordinate(), coordinate())).collect();
    places.into_iter().map(|(x, y)| Corner::new(x, y, rng.below(6) as f32)).collect()
}

fn merge_without_grid(tally: &mut Tally) {
    let mut rng = Rng::new(1);
    for _ in 0..60_000 {
        let list = random_list(&mut rng);
        let radius = rng.pick(&[1.0, 3.0, 0.5, 0.7, 2.0, 1.5, 5.3, 64.0]);
        let same = same_list(&original(&list, radius), &by_cell_numbers(&list, radius));
        tally.check("merge by cell numbers", same);
    }
}

/// The composed pass is the original orchestrator, where that does not panic; and 4 never arises in a frame: every
/// coordinate is in its range, and the centroid accepts every peak.
fn pass_as_original(tally: &mut Tally) {
    let in_range = |c: &Corner| (0.0..=4096.0).contains(&c.x) && (0.0..=4096.0).contains(&c.y);
    for case in 0..4000 {
        let mut rng = Rng::of_case(3, 0, case);
        let shape = rng.pick(&[Shape::Small, Shape::Large]);
        let upload = frame(&mut rng, shape);
        let (image, params) = (upload.image(), &upload.params);
        with_lists(image, params, &STEPS, |lists| {
            let peaks = |view: &View| (STEPS.peaks)(view, &view.map(params.ring), params).len();
            let found: usize = lists.views.iter().map(peaks).sum();
            tally.same("peaks accepted", lists.seeds.len() + lists.found.len(), found);
            let all = lists.seeds.iter().chain(&lists.found);
            tally.check("coordinates in range", all.clone().all(in_range));
            let last = lists.views.first().map(|view| view.image);
            let thin = last.is_some_and(|i| i.width.min(i.height) < 2 * params.ring as usize);
            if !thin {
                let same = same_list(&lists.corners, &by_orchestrator(image, params));
                tally.check("pass as the original orchestrator", same);
            }
        });
    }
}

fn wrong_roads(tally: &mut Tally) {
    for (road, number) in hunted::FOUND {
        tally.check(&format!("{road:?} {number}"), road.shows(&road.frame(number)));
    }
    let above = |case: &peaks::Case| {
        let map = ResponseMap::new(case.width, case.height, case.cells.clone());
        !same_list(&(oracle::peaks::peaks_of)(&map, &case.params), &wrong::peaks_above(&map, &case.params))
    };
    let shown = peaks::random_cases(SEED).filter(above).count();
    tally.check("above the threshold: shown by the peaks of the sample", shown >= 10);
    for (name, merge) in [
        ("by distance", wrong::merge_by_distance as fn(&[Corner], f32) -> Vec<Corner>),
        ("by division", wrong::merge_by_division),
        ("from zero", wrong::merge_from_zero),
    ] {
        let shows = |case: &merges::Case| {
            let list = case.buffer.list(case.count.min(case.buffer.places()));
            let mut buffer = case.buffer.clone();
            let answer = oracle::merge::merge(&mut buffer, case.count, case.radius);
            answer.is_ok_and(|kept| !same_list(&buffer.list(kept), &merge(&list, case.radius)))
        };
        let shown = merges::random_cases(SEED).filter(shows).count();
        tally.check(&format!("merge {name}: shown {shown} times by the sample"), shown >= 5);
    }
    half_to_even(tally);
}

/// A centroid's seed of 2.5 is rounded to 3, not to 2.
fn half_to_even(tally: &mut Tally) {
    let cells = [1.0, 2.0, 3.0, 4.0, 5.0];
    let map = Map { cells: &cells, width: 5, height: 1 };
    let x = refine(0, 2.5, 0.0, Some(map)).map(|c| (c.x, c.mass));
    tally.same("centroid's seed half way", x, Ok((3.0, 4.0)));
}

fn main() -> ExitCode {
    let mut tally = Tally::default();
    pyramid_cases(&mut tally);
    response_cases(&mut tally);
    box_cases(&mut tally);
    whole_cases(&mut tally);
    refusal_cases(&mut tally);
    wrong_roads(&mut tally);
    merge_without_grid(&mut tally);
    pass_as_original(&mut tally);
    tally.finish()
}
