//! oracle_compare N SEED PROGRAM [FOLDER]: runs PROGRAM on N random and N/5 damaged streams, the hunted frames and each
//! refusal, and compares what it prints with what the oracle does. Differing streams are left in FOLDER.
use oracle::compare::{cases, run};
use std::io::Write;
use std::path::PathBuf;
use std::process::{Command, ExitCode, Stdio};

/// What the program writes to standard output for a stream; its exit status says nothing.
fn answer(program: &str, stream: &[u8]) -> Vec<u8> {
    let mut child = Command::new(program)
        .stdin(Stdio::piped())
        .stdout(Stdio::piped())
        .spawn()
        .unwrap_or_else(|error| panic!("{program}: {error}"));
    // A stream is shorter than a pipe holds. A program that stops reading early has its reasons.
    let _ = child.stdin.take().expect("a pipe").write_all(stream);
    child.wait_with_output().expect("its output").stdout
}

fn main() -> ExitCode {
    let words: Vec<String> = std::env::args().skip(1).collect();
    let usage = "usage: oracle_compare N SEED PROGRAM [FOLDER]";
    let number = |i: usize| words.get(i).and_then(|w| w.parse().ok()).expect(usage);
    let (count, seed) = (number(0), number(1));
    let program = words.get(2).expect(usage);
    let folder = words.get(3).map_or("differing", String::as_str);
    run(cases(count, seed), &PathBuf::from(folder), |stream| answer(program, stream)).finish()
}
