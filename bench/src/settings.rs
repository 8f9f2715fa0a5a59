//! What a run is asked for.
use crate::interleaved::Effort;
use crate::library::Find;
use crate::others::{self, Simd};

pub struct Settings {
    pub effort: Effort,
    /// After so many seconds a row that may take minutes is given up.
    pub limit: u64,
    /// A photograph as a PGM file.
    pub photo: Option<String>,
    /// The original's `simd` builds that are there.
    pub simd: Vec<Simd>,
    /// A frame by a library of ours from before.
    pub before: Option<Find>,
    /// The tables that are asked for; all where there is none.
    pub rows: Vec<String>,
    /// The page that is written.
    pub page: Option<String>,
}

/// The columns of the `simd` builds, compiled for any x86-64 and for this processor.
pub const SIMD: &str = "simd";
pub const NATIVE: &str = "simd native";

impl Settings {
    /// From pairs of an option and its value.
    pub fn read(words: &[String]) -> Self {
        let effort = Effort { rounds: 25, seconds: 5.0 };
        let (photo, before, page) = (None, None, None);
        let mut settings = Self { effort, limit: 20, photo, simd: vec![], before, rows: vec![], page };
        for pair in words.chunks(2) {
            let [option, value] = pair else { panic!("{} has no value", pair[0]) };
            settings.set(option, value);
        }
        settings
    }

    fn set(&mut self, option: &str, value: &str) {
        let number = || value.parse::<usize>().expect("a number");
        match option {
            "--rounds" => self.effort.rounds = number(),
            "--seconds" => self.effort.seconds = number() as f64,
            "--limit" => self.limit = number() as u64,
            "--photo" => self.photo = Some(value.into()),
            "--simd" => self.simd.push(Simd::load(SIMD, value)),
            "--native" => self.simd.push(Simd::load(NATIVE, value)),
            "--before" => self.before = Some(others::before(value)),
            "--rows" => self.rows.push(value.into()),
            "--page" => self.page = Some(value.into()),
            _ => panic!("there is no option {option}"),
        }
    }

    /// How the times were taken, for the page.
    pub fn said(&self) -> String {
        let Effort { rounds, seconds } = self.effort;
        format!("At most {rounds} rounds for a row, and none that begins after {seconds} seconds and three rounds.")
    }

    /// Whether a table is asked for.
    pub fn has(&self, name: &str) -> bool {
        self.rows.is_empty() || self.rows.iter().any(|row| row == name)
    }
}
