//! Ways that may take minutes: each runs in a process of its own, which ends by itself when its time is over.
use crate::settings::Settings;
use crate::table::ratio;
use oracle::timing::cpu_seconds;
use std::process::{exit, Command};
use std::sync::atomic::{AtomicBool, Ordering::Relaxed};
use std::time::Duration;

/// What one run gives: its time, how many corners there are, and a number that differs where they do.
pub struct Done {
    seconds: f64,
    count: usize,
    sum: u64,
}

impl Done {
    /// The number is FNV-1a over the bits.
    pub fn new(seconds: f64, corners: &[[u32; 3]]) -> Self {
        let step = |sum: u64, word: &u32| (sum ^ u64::from(*word)).wrapping_mul(0x100_0000_01b3);
        let sum = corners.iter().flatten().fold(0xcbf2_9ce4_8422_2325, step);
        Self { seconds, count: corners.len(), sum }
    }
}

pub enum Outcome {
    Done(Done),
    /// Not done in so many seconds of CPU time.
    Late(u64),
    NotRun(String),
}

/// Something that can be run, or why it is not.
pub type Prepared = Result<Box<dyn FnMut() -> Done>, String>;

/// Thread CPU time, and what came of it.
pub fn timed<T>(work: impl FnOnce() -> T) -> (f64, T) {
    let start = cpu_seconds();
    let result = work();
    (cpu_seconds() - start, result)
}

/// CPU time of this process in seconds, which a thread beside the one that works can ask for.
fn process_seconds() -> f64 {
    extern "C" {
        fn clock() -> i64;
    }
    const A_SECOND: f64 = 1e6; // POSIX
                               // SAFETY: it takes nothing and only answers.
    unsafe { clock() as f64 / A_SECOND }
}

/// Ends the process where nothing is done within so many seconds from now.
fn watch(limit: u64, is_done: &'static AtomicBool) {
    let end = process_seconds() + limit as f64;
    std::thread::spawn(move || {
        while !is_done.load(Relaxed) {
            std::thread::sleep(Duration::from_millis(20));
            if process_seconds() > end {
                println!("late {limit}");
                exit(0);
            }
        }
    });
}

/// In the process: the least of the runs that begin within two seconds. The limit is that of the first.
pub fn run(prepared: Prepared, limit: u64) {
    static IS_DONE: AtomicBool = AtomicBool::new(false);
    let mut call = match prepared {
        Ok(call) => call,
        Err(why) => return println!("not {why}"),
    };
    watch(limit, &IS_DONE);
    let start = cpu_seconds();
    let mut least = call();
    IS_DONE.store(true, Relaxed);
    while cpu_seconds() - start < 2.0 {
        least.seconds = least.seconds.min(call().seconds);
    }
    println!("done {} {} {}", least.seconds, least.count, least.sum);
}

/// From outside.
fn outcome(job: &str, way: &str, limit: u64) -> Outcome {
    let program = std::env::current_exe().expect("this program");
    let output =
        Command::new(program).args(["alone", job, way, &limit.to_string()]).output().expect("a process");
    assert!(output.status.success(), "{job}, {way}: {}", String::from_utf8_lossy(&output.stderr));
    let said = String::from_utf8(output.stdout).expect("text");
    let (kind, rest) = said.trim().split_once(' ').expect("an outcome");
    let words: Vec<&str> = rest.split(' ').collect();
    match (kind, &words[..]) {
        ("done", [seconds, count, sum]) => Outcome::Done(Done {
            seconds: seconds.parse().expect("seconds"),
            count: count.parse().expect("a count"),
            sum: sum.parse().expect("a sum"),
        }),
        ("late", _) => Outcome::Late(limit),
        _ => Outcome::NotRun(rest.into()),
    }
}

impl Outcome {
    fn done(&self) -> Option<&Done> {
        match self {
            Self::Done(done) => Some(done),
            _ => None,
        }
    }

    /// Without end where it is not done.
    pub fn seconds(&self) -> f64 {
        self.done().map_or(f64::INFINITY, |done| done.seconds)
    }

    fn text(&self) -> String {
        match self {
            Self::Done(done) => format!("{:.3}", done.seconds),
            Self::Late(limit) => format!("not done in {limit}"),
            Self::NotRun(why) => format!("not run: {why}"),
        }
    }
}

/// The outcomes of some ways, of which all that are done give the same corners.
pub fn outcomes(job: &str, ways: &[&str], settings: &Settings) -> Vec<Outcome> {
    let outcomes: Vec<_> = ways.iter().map(|way| outcome(job, way, settings.limit)).collect();
    let mut done = outcomes.iter().filter_map(Outcome::done).map(|done| (done.count, done.sum));
    let first = done.next();
    assert!(done.all(|other| Some(other) == first), "{job}: the results differ");
    outcomes
}

/// The last columns of a table: how many corners there are, each way's time, and the others against the first.
pub fn head(first: &[&str], ways: &[&str]) -> Vec<String> {
    let times = ways.iter().map(|way| format!("{way}, s"));
    let ratios = ways[1..].iter().map(|way| format!("{way} / {}", ways[0]));
    first.iter().map(|name| name.to_string()).chain(times).chain(ratios).collect()
}

/// The same of a row.
pub fn cells(outcomes: &[Outcome]) -> Vec<String> {
    let count = outcomes.iter().find_map(|outcome| outcome.done().map(|done| done.count.to_string()));
    let times = outcomes.iter().map(Outcome::text);
    let against = |way: &Outcome| Some(ratio(way.done()?.seconds / outcomes[0].done()?.seconds));
    let ratios = outcomes[1..].iter().map(|way| against(way).unwrap_or_default());
    std::iter::once(count.unwrap_or_default()).chain(times).chain(ratios).collect()
}
