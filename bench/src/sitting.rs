//! Where and when something was measured.
use std::process::Command;

/// The first line that a program prints, if it is there.
pub fn first_line(program: &str, arguments: &[&str]) -> Option<String> {
    let output = Command::new(program).args(arguments).output().ok()?;
    let line = String::from_utf8(output.stdout).ok()?.lines().next()?.trim().to_string();
    output.status.success().then_some(line)
}

/// How many processes were at work in the last minute, by the kernel; this one counts too.
fn load() -> String {
    let loads = std::fs::read_to_string("/proc/loadavg").unwrap_or_default();
    loads.split(' ').next().unwrap_or_default().into()
}

/// Day, time and load.
pub struct Moment {
    day: String,
    time: String,
    load: String,
}

impl Moment {
    pub fn now() -> Self {
        let date = |format| first_line("date", &["-u", format]).unwrap_or_default();
        Self { day: date("+%Y-%m-%d"), time: date("+%H:%M"), load: load() }
    }

    /// What stands above a table that was begun at this moment and is done now.
    pub fn until_now(&self) -> String {
        let end = Self::now();
        format!(
            "Measured on {}, {} to {} UTC; load {} at the start, {} at the end.",
            self.day, self.time, end.time, self.load, end.load
        )
    }
}

/// The sizes of the caches of a core, from the nearest on.
fn caches() -> String {
    let size =
        |i: usize| std::fs::read_to_string(format!("/sys/devices/system/cpu/cpu0/cache/index{i}/size")).ok();
    let sizes: Vec<String> = (0..).map_while(size).map(|size| size.trim().into()).collect();
    if sizes.is_empty() {
        "of unknown sizes".into()
    } else {
        format!("of {}", sizes.join(", "))
    }
}

/// The machine, the compilers and the tree.
pub fn machine(how: &str) -> String {
    let cpu = std::fs::read_to_string("/proc/cpuinfo").unwrap_or_default();
    let model =
        cpu.lines().find(|line| line.starts_with("model name")).and_then(|line| line.split(": ").nth(1));
    let cores = cpu.lines().filter(|line| line.starts_with("processor")).count();
    let said =
        |program, arguments: &[&str]| first_line(program, arguments).unwrap_or(format!("no {program}"));
    let nightly = first_line("rustc", &["+nightly", "--version"]).unwrap_or("no nightly".into());
    [
        format!("- The machine: {}, {cores} cores, caches {}.", model.unwrap_or("unknown"), caches()),
        format!("- Compilers: {}; {nightly} for the `simd` build;", said("rustc", &["--version"])),
        format!("  {}; {}.", said("gcc", &["--version"]), said("rt", &["version"])),
        format!("- The tree: commit {}.", said("git", &["describe", "--always", "--dirty"])),
        format!("- {how}"),
    ]
    .map(|line| line + "\n")
    .concat()
}
