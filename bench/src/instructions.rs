//! The instructions of one small frame, counted by callgrind.
use crate::frames::places;
use crate::library::{self, Buffers};
use crate::pictures::{board, Picture};
use crate::settings::Settings;
use crate::table::{ratio, Table};
use oracle::frame::corners_of;
use oracle::params::Params;
use oracle::timing::ORIGINAL;
use std::hint::black_box;
use std::process::Command;

#[no_mangle]
#[inline(never)]
extern "C" fn original_frame(picture: &Picture, p: &Params) -> usize {
    black_box(corners_of(picture.image(), p, &ORIGINAL)).len()
}

#[no_mangle]
#[inline(never)]
extern "C" fn our_frame(picture: &Picture, p: &Params, buffers: &mut Buffers) -> usize {
    black_box(library::frame(picture.image(), p, buffers))
}

/// What callgrind runs: one frame by each.
pub fn frames(levels: u32) {
    let picture = board(96, 96, 5);
    let p = Params { levels, ..picture.params };
    let mut buffers = Buffers::new(picture.cells(), places(0));
    assert_eq!(original_frame(&picture, &p), our_frame(&picture, &p, &mut buffers));
}

/// The instructions of one function; none where there is no valgrind.
fn counted(function: &str, levels: u32) -> Option<f64> {
    let program = std::env::current_exe().expect("this program");
    let output = Command::new("valgrind")
        .args(["--tool=callgrind", "--callgrind-out-file=/dev/null", &format!("--toggle-collect={function}")])
        .arg(program)
        .args(["count", &levels.to_string()])
        .output()
        .ok()?;
    let said = String::from_utf8(output.stderr).ok()?;
    said.lines().find_map(|line| line.split("Collected : ").nth(1))?.trim().parse().ok()
}

pub fn table(_: &Settings) -> Table {
    let head = ["instructions, 96 x 96, ring 5", "Rust", "ours", "ours / Rust"];
    let row = |levels: u32| {
        let counts = [counted("original_frame", levels)?, counted("our_frame", levels)?];
        let [rust, ours] = counts.map(|count| format!("{count}"));
        Some(vec![format!("levels: {levels}"), rust, ours, ratio(counts[1] / counts[0])])
    };
    let rows: Vec<_> = [1, 3].into_iter().filter_map(row).collect();
    let missing = rows.is_empty().then(|| "no valgrind on this machine".into());
    Table { head: head.map(String::from).into(), rows, counts: Vec::new() }.with_line(missing)
}
