//! oracle_differences: runs the original and the oracle on the inputs of NOTES.md, where the original panics, stops or
//! answers and docs/RULES.md says something else. Each outcome is held to the one that is written down, in a build with
//! overflow checks and in one without.
use chess_corners::multiscale::visible::{roi_boxes, BoxContext};
use chess_corners_core::{
    chess_response_u8, chess_response_u8_patch, detect_peaks_from_response_with_refine_radius,
    CenterOfMassConfig, CenterOfMassRefiner, CornerRefiner, RefineContext, Roi,
};
use oracle::buffers::{Buffers, CornerBuffer, Sizes};
use oracle::centroid::{refine, Map};
use oracle::frame::{by_orchestrator, find_corners};
use oracle::generate::images::noise;
use oracle::generate::Rng;
use oracle::image::Image;
use oracle::params::{Params, PLAIN};
use oracle::pass::STEPS;
use oracle::peaks::find_peaks;
use oracle::refusal::{Refusal, LARGEST_SIDE};
use oracle::response::{map_of, response};
use oracle::search_box::search_box;
use oracle::tally::Tally;
use oracle::{merge, Corner, ResponseMap};
use std::hint::black_box;
use std::panic::{catch_unwind, UnwindSafe};
use std::process::{Command, ExitCode};

/// What the original does and what the oracle says.
struct Pair {
    original: String,
    oracle: String,
}

/// What a call of the original gives, or the panic's message.
fn outcome<T: ToString>(call: impl FnOnce() -> T + UnwindSafe) -> String {
    match catch_unwind(call) {
        Ok(answer) => answer.to_string(),
        Err(cause) => {
            let text = cause.downcast_ref::<String>().map(String::as_str);
            let text = text.or(cause.downcast_ref::<&str>().copied()).unwrap_or("?");
            format!("panic: {}", text.lines().next().unwrap_or_default())
        }
    }
}

/// The oracle's answer as text.
fn answer<T>(answer: Result<T, Refusal>, text: impl FnOnce(T) -> String) -> String {
    match answer {
        Ok(found) => text(found),
        Err(number) => format!("refused {number}"),
    }
}

fn map_text(width: usize, height: usize, cells: &[f32]) -> String {
    let zero = cells.iter().all(|v| v.to_bits() == 0);
    format!("{width} by {height}, {}", if zero { "zeros" } else { "not zero" })
}

/// The oracle's map of a whole image.
fn oracle_map(pixels: &[u8], width: usize, height: usize) -> String {
    let image = Image { pixels, width, height };
    let mut map = vec![0.0; pixels.len()];
    let sides = response(image, 5, image.whole(), &mut map);
    answer(sides, |(w, h)| map_text(w, h, &map))
}

/// `chess_response_u8` on pixels of 7.
fn whole(length: usize, width: usize, height: usize) -> Pair {
    let pixels = vec![7; length];
    let oracle = oracle_map(&pixels, width, height);
    let original = outcome(move || {
        let map = chess_response_u8(&pixels, width, height, &PLAIN.chess());
        map_text(map.width(), map.height(), map.data())
    });
    Pair { original, oracle }
}

/// `chess_response_u8_patch` on the box that is the whole of a flat image.
fn patch(width: usize, height: usize) -> Pair {
    let pixels = vec![7; width * height];
    let oracle = oracle_map(&pixels, width, height);
    let original = outcome(move || {
        let roi = Roi::new(0, 0, width, height).expect("a box");
        let map = chess_response_u8_patch(&pixels, width, height, &PLAIN.chess(), roi);
        map_text(map.width(), map.height(), map.data())
    });
    Pair { original, oracle }
}

/// `detect_multiscale` on a flat frame.
fn frame(width: usize, height: usize, levels: u32) -> Pair {
    let params = Params { levels, ..PLAIN };
    let pixels = vec![7; width * height];
    let image = Image { pixels: &pixels, width, height };
    let size = pixels.len();
    let mut buffers = Buffers::before(&Sizes { map: size, levels: size, ..Sizes::default() });
    let found = find_corners(image, &params, &mut buffers, LARGEST_SIDE, &STEPS);
    let original = outcome(|| format!("{} corners", by_orchestrator(image, &params).len()));
    Pair { original, oracle: answer(found, |found| format!("{} corners", found.count)) }
}

/// `CenterOfMassRefiner::refine` on a map of 2.0 in every cell.
fn centroid(side: usize, radius: i32, x: f32) -> Pair {
    let cells = vec![2.0; side * side];
    let oracle = match u32::try_from(radius) {
        Ok(radius) => {
            let map = Map { cells: &cells, width: side, height: side };
            let found = refine(radius, x, x, Some(map));
            answer(found, |c| format!("{:?} {} {} {}", c.outcome, c.x, c.y, c.mass))
        }
        Err(_) => "no such argument".into(),
    };
    let original = outcome(move || {
        let map = ResponseMap::new(side, side, cells);
        let mut config = CenterOfMassConfig::default();
        config.radius = radius;
        let context = RefineContext::new(None, Some(&map));
        let found = CenterOfMassRefiner::new(config).refine([x, x], context);
        format!("{:?} {} {} {}", found.status, found.x, found.y, found.score)
    });
    Pair { original, oracle }
}

/// `detect_peaks_from_response_with_refine_radius` on a map whose middle cell alone is not 0.
fn peaks(side: usize, window: u32) -> Pair {
    let params = Params { window, ..PLAIN };
    let mut cells = vec![0.0; side * side];
    cells[side * side / 2] = 2.0;
    let mut buffer = CornerBuffer::before([1; 4]);
    let found = find_peaks(&cells, side, side, &params, &mut buffer, 0);
    let original = outcome(move || {
        let map = ResponseMap::new(side, side, cells);
        let list = detect_peaks_from_response_with_refine_radius(&map, &params.chess(), 0);
        format!("{} peaks", list.len())
    });
    Pair { original, oracle: answer(found, |count| format!("{count} peaks")) }
}

/// `RoiContext::compute_roi` for a seed of a level over a base of 200 by 200.
fn box_of(coordinate: f32, search: u32, level: u32) -> Pair {
    let params = Params { search, ..PLAIN };
    let found = search_box(200, 200, level, &params, coordinate, coordinate);
    let oracle = answer(found, |area| format!("{area:?}"));
    let original = outcome(move || {
        let context = BoxContext {
            width: 200,
            height: 200,
            coarse_scale: 1.0 / (1u32 << level) as f32,
            detector_border: 5,
            refine_border: 0,
            refinement_radius: search,
        };
        let seed = Corner::new(coordinate, coordinate, 1.0);
        format!("{:?}", roi_boxes(&vec![0; 40_000], &context, &[seed])[0])
    });
    Pair { original, oracle }
}

/// Corners of one strength.
fn corners(places: &[(f32, f32)]) -> Vec<Corner> {
    places.iter().map(|&(x, y)| Corner::new(x, y, 1.0)).collect()
}

/// The oracle's merge.
fn oracle_merge(list: &[Corner], radius: f32) -> String {
    let mut buffer = CornerBuffer::before([list.len(); 4]);
    buffer.put(0, list, &vec![0; list.len()]);
    let kept = merge::merge(&mut buffer, list.len(), radius);
    answer(kept, |count| format!("{count} corners"))
}

/// `merge_corners_simple`.
fn merged(places: &[(f32, f32)], radius: f32) -> Pair {
    let list = corners(places);
    let oracle = oracle_merge(&list, radius);
    let original = outcome(move || format!("{} corners", merge::original(&list, radius).len()));
    Pair { original, oracle }
}

const LARGE_GRID: [(f32, f32); 2] = [(0.0, 0.0), (4096.0, 4096.0)];

/// The same in a process of its own that may use 4 GB: too large a grid stops the process.
fn merged_apart() -> Pair {
    let own = std::env::current_exe().expect("this program");
    let script = format!("ulimit -v 4000000; exec '{}' --large-grid 2>&1", own.display());
    let run = Command::new("sh").args(["-c", &script]).output().expect("a shell");
    let text = String::from_utf8_lossy(&run.stdout);
    let line = text.lines().find(|line| line.contains("memory")).unwrap_or(&text);
    let end = if run.status.code().is_none() { "abort" } else { "no abort" };
    let oracle = oracle_merge(&corners(&LARGE_GRID), 1.0 / 64.0);
    Pair { original: format!("{end}: {line}"), oracle }
}

/// An input, how what the original does begins in each build, and what the rules say.
struct Difference {
    name: &'static str,
    run: fn() -> Pair,
    plain: &'static str,
    checked: &'static str,
    rules: &'static str,
}

const PANIC: &str = "panic: ";
const SUBTRACTS: &str = "panic: attempt to subtract with overflow";
const ADDS: &str = "panic: attempt to add with overflow";
const MULTIPLIES: &str = "panic: attempt to multiply with overflow";

/// A row whose outcome is the same in both builds.
fn both(name: &'static str, run: fn() -> Pair, original: &'static str, rules: &'static str) -> Difference {
    Difference { name, run, plain: original, checked: original, rules }
}

fn thin_images() -> Vec<Difference> {
    let row = |name, run, plain, rules| Difference { name, run, plain, checked: SUBTRACTS, rules };
    vec![
        row("whole-image response, 0 by 0", || whole(0, 0, 0), PANIC, "0 by 0, zeros"),
        row("whole-image response, 1 by 1", || whole(1, 1, 1), PANIC, "1 by 1, zeros"),
        both("whole-image response, 9 by 11", || whole(99, 9, 11), PANIC, "9 by 11, zeros"),
        both("whole-image response, 11 by 9", || whole(99, 11, 9), "11 by 9, zeros", "11 by 9, zeros"),
        row("response of a box, 1 by 1", || patch(1, 1), "1 by 1, zeros", "1 by 1, zeros"),
        row("response of a box, 4 by 30", || patch(4, 30), "4 by 30, zeros", "4 by 30, zeros"),
        both("response of a box, 5 by 5", || patch(5, 5), "5 by 5, zeros", "5 by 5, zeros"),
        row("frame, 0 by 0", || frame(0, 0, 1), PANIC, "0 corners"),
        both("frame, 9 by 11", || frame(9, 11, 1), PANIC, "0 corners"),
        both("frame, 18 by 22, two levels", || frame(18, 22, 2), PANIC, "0 corners"),
    ]
}

fn arguments() -> Vec<Difference> {
    vec![
        both("2 pixels for 1 by 1", || whole(2, 1, 1), PANIC, "refused 2"),
        Difference {
            name: "sides of 2^32 without pixels",
            run: || whole(0, 1 << 32, 1 << 32),
            plain: PANIC,
            checked: MULTIPLIES,
            rules: "refused 1",
        },
        both("centroid, seed NaN", || centroid(1, 0, f32::NAN), "Accepted 0 0 2", "refused 4"),
        both("centroid, seed 1,000,000.1", || centroid(1, 0, 1_000_000.1), "OutOfBounds", "refused 4"),
        both("centroid, seed infinite", || centroid(1, 0, f32::INFINITY), "OutOfBounds", "refused 4"),
        both("centroid, radius 17", || centroid(35, 17, 17.0), "Accepted 17 17 2450", "refused 3"),
        both("centroid, radius -1", || centroid(1, -1, 0.0), "IllConditioned 0 0 0", "no such argument"),
        both("peaks, window 17", || peaks(45, 17), "1 peaks", "refused 3"),
        both("peaks, window 2^32 - 1", || peaks(9, u32::MAX), "1 peaks", "refused 3"),
        both("box, seed NaN", || box_of(f32::NAN, 3, 0), "None", "refused 4"),
        both("box, seed -1", || box_of(-1.0, 3, 0), "None", "refused 4"),
        both("box, seed 4,097", || box_of(4097.0, 3, 0), "None", "refused 4"),
        both("box, search radius 256", || box_of(100.0, 256, 0), "Some((5, 5, 195, 195))", "refused 3"),
        Difference {
            name: "box, search radius 2^31",
            run: || box_of(100.0, 1 << 31, 0),
            plain: "None",
            checked: ADDS,
            rules: "refused 3",
        },
        both("box, level 13", || box_of(0.01, 3, 13), "Some((5, 5, 195, 195))", "refused 3"),
    ]
}

fn merges() -> Vec<Difference> {
    vec![
        both(
            "merge, 2^36 cells",
            merged_apart,
            "abort: memory allocation of 1649280024600 bytes failed",
            "2 corners",
        ),
        Difference {
            name: "merge, radius subnormal",
            run: || merged(&[(0.0, 0.0), (1.0, 0.0)], f32::from_bits(1)),
            plain: PANIC,
            checked: ADDS,
            rules: "refused 5",
        },
        both(
            "merge, radius subnormal, one corner",
            || merged(&[(1.0, 1.0)], f32::from_bits(1)),
            "1 corners",
            "refused 5",
        ),
        both("merge, radius 1/65, no corner", || merged(&[], 1.0 / 65.0), "0 corners", "refused 5"),
        both(
            "merge, radius 5,000",
            || merged(&[(0.0, 0.0), (4096.0, 0.0)], 5000.0),
            "1 corners",
            "refused 5",
        ),
        both(
            "merge, NaN coordinate",
            || merged(&[(f32::NAN, 0.0), (0.0, 0.0)], 1.0),
            "2 corners",
            "refused 4",
        ),
        both(
            "merge, infinite coordinate",
            || merged(&[(f32::INFINITY, 0.0), (0.0, 0.0)], 1.0),
            "2 corners",
            "refused 4",
        ),
        both("merge, coordinate -1", || merged(&[(-1.0, 0.0), (0.0, 0.0)], 1.0), "1 corners", "refused 4"),
        both(
            "merge, coordinate 5,000",
            || merged(&[(5000.0, 0.0), (5000.0, 1.0)], 1.0),
            "1 corners",
            "refused 4",
        ),
    ]
}

/// Where exactly `chess_response_u8` panics, on all images of up to 30 by 30; elsewhere it gives the map of the box that
/// is the whole image.
fn thin_rule(tally: &mut Tally, checked: bool) {
    let mut rng = Rng::new(1);
    for (ring, width, height) in [5, 10].into_iter().flat_map(|r| sizes(31).map(move |(w, h)| (r, w, h))) {
        let pixels = noise(&mut rng, width * height, 0, 256);
        let image = Image { pixels: &pixels, width, height };
        let params = Params { ring, ..PLAIN };
        let map = catch_unwind(|| chess_response_u8(&pixels, width, height, &params.chess()));
        let reach = ring as usize;
        let wraps = height < reach || checked && width < reach;
        let due = wraps || height > 2 * reach && width < 2 * reach;
        tally.same("panics on a thin image", map.is_err(), due);
        if let Ok(map) = map {
            let same = map.data() == map_of(image, ring, image.whole()).data();
            tally.check("whole-image response as that of a box", same);
        }
    }
}

/// All widths and heights below a limit.
fn sizes(limit: usize) -> impl Iterator<Item = (usize, usize)> {
    (0..limit).flat_map(move |width| (0..limit).map(move |height| (width, height)))
}

/// Whether this build checks sums for overflow.
fn is_checked() -> bool {
    catch_unwind(|| black_box(0u32) - black_box(1u32)).is_err()
}

fn main() -> ExitCode {
    if std::env::args().nth(1).is_some_and(|word| word == "--large-grid") {
        println!("{} corners", merge::original(&corners(&LARGE_GRID), 1.0 / 64.0).len());
        return ExitCode::SUCCESS;
    }
    std::panic::set_hook(Box::new(|_| {}));
    let checked = is_checked();
    println!("overflow checks: {}", if checked { "on" } else { "off" });
    let mut tally = Tally::default();
    for row in thin_images().into_iter().chain(arguments()).chain(merges()) {
        let Pair { original, oracle } = (row.run)();
        println!("{}: original {original}; oracle {oracle}", row.name);
        let due = if checked { row.checked } else { row.plain };
        tally.check(&format!("{}: {due}", row.name), original.starts_with(due));
        tally.same(row.name, oracle.as_str(), row.rules);
    }
    thin_rule(&mut tally, checked);
    tally.finish()
}
