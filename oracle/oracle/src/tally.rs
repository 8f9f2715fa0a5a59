//! Counts checks and prints the last line of a run.
use std::fmt::Debug;
use std::process::ExitCode;

/// How many failed checks are named.
const NAMED: u64 = 20;

#[derive(Default)]
pub struct Tally {
    pub passed: u64,
    pub failed: u64,
}

impl Tally {
    /// Counts one check; a failed one is named.
    pub fn check(&mut self, name: &str, holds: bool) {
        if holds {
            self.passed += 1;
            return;
        }
        self.failed += 1;
        if self.failed <= NAMED {
            println!("failed: {name}");
        }
    }

    /// Counts one comparison of an answer with what is due.
    pub fn same<T: PartialEq + Debug>(&mut self, name: &str, got: T, due: T) {
        let holds = got == due;
        self.check(&format!("{name}: got {got:?}, due {due:?}"), holds);
    }

    /// Both counts together.
    pub fn and(self, other: Self) -> Self {
        Self { passed: self.passed + other.passed, failed: self.failed + other.failed }
    }

    /// Prints 'N passed, M failed', the last line.
    pub fn finish(self) -> ExitCode {
        println!("{} passed, {} failed", self.passed, self.failed);
        if self.failed == 0 {
            ExitCode::SUCCESS
        } else {
            ExitCode::FAILURE
        }
    }
}
