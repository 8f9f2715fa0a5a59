//! oracle_corners [OPTIONS] < STREAM: what `corners` must print.
//!   --state                               then the ties and what each buffer holds, as `corners` would leave it
//!   --exact                               the same by the exact choice (RULES 10.2) instead of the computed one
//!   --side N                              the largest side (96)
//!   --buffers MAP LEVELS SEEDS CORNERS    the buffers' lengths (9216 3072 512 512)
use oracle::buffers::{byte_front, float_front, word_front, Buffers, CornerBuffer, Rest, Sizes};
use oracle::exact::EXACT;
use oracle::numbers::bits;
use oracle::program::{printed, Program, CORNERS};
use std::io::Read;

struct Options {
    program: Program,
    state: bool,
}

fn options() -> Options {
    let mut options = Options { program: CORNERS, state: false };
    let mut words = std::env::args().skip(1);
    while let Some(word) = words.next() {
        let mut number = || words.next().and_then(|w| w.parse().ok()).expect("a number");
        match word.as_str() {
            "--state" => options.state = true,
            "--exact" => options.program.steps = EXACT,
            "--side" => options.program.largest_side = number(),
            "--buffers" => {
                let (map, levels) = (number(), number());
                let (seeds, corners) = ([number(); 4], [number(); 4]);
                options.program.sizes = Sizes { map, levels, seeds, corners };
            }
            _ => panic!("unknown option {word}"),
        }
    }
    options
}

/// A line for a buffer: its length, the places that were written first, and what stands behind them.
fn show(name: &str, length: usize, front: Vec<String>, rest: Rest) {
    let rest = match rest {
        Rest::Zero => "zero",
        Rest::AsBefore => "as before",
    };
    let front: String = front.iter().map(|digits| format!("{digits} ")).collect();
    println!("{name} ({length}): {front}then {rest}");
}

fn show_floats(name: &str, before: &[f32], after: &[f32]) {
    let (front, rest) = float_front(before, after);
    let digits = front.iter().map(|&v| format!("{:08x}", bits(v))).collect();
    show(name, after.len(), digits, rest);
}

fn show_list(name: &str, before: &CornerBuffer, after: &CornerBuffer) {
    show_floats(&format!("{name} x"), &before.x, &after.x);
    show_floats(&format!("{name} y"), &before.y, &after.y);
    show_floats(&format!("{name} strength"), &before.strength, &after.strength);
    let (front, rest) = word_front(&before.neighbours, &after.neighbours);
    let digits = front.iter().map(u32::to_string).collect();
    show(&format!("{name} neighbours"), after.neighbours.len(), digits, rest);
}

fn show_state(before: &Buffers, after: &Buffers) {
    show_floats("map", &before.map, &after.map);
    let (front, rest) = byte_front(&before.levels, &after.levels);
    let digits = front.iter().map(|v| format!("{v:02x}")).collect();
    show("levels", after.levels.len(), digits, rest);
    show_list("seeds", &before.seeds, &after.seeds);
    show_list("corners", &before.corners, &after.corners);
}

fn main() {
    let options = options();
    let mut stream = Vec::new();
    std::io::stdin().read_to_end(&mut stream).expect("standard input");
    let (answer, after) = options.program.run(&stream);
    print!("{}", printed(answer, &after));
    if options.state {
        if let Ok(found) = answer {
            println!("ties {}", found.ties);
        }
        show_state(&Buffers::before(&options.program.sizes), &after);
    }
}
