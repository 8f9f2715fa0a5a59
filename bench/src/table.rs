//! A table: a line for each row that was measured, and which targets the rows count towards.
use crate::interleaved::Times;
use crate::targets::{Count, Target};

/// What a column shows of a row's times, which are named as in `Turns`.
#[derive(Clone, Copy)]
pub enum Column {
    Time(&'static str),
    Ratio(&'static str, &'static str),
}

/// What was measured on one input.
pub struct Measured {
    pub input: String,
    pub times: Times,
    pub counts: Vec<Count>,
}

impl Measured {
    pub fn new(input: String, times: Times) -> Self {
        Self { input, times, counts: Vec::new() }
    }

    /// The same, and the ratio of two of its times counts towards a target.
    pub fn towards(self, target: &'static Target, over: &str, under: &str) -> Self {
        let most = target.most;
        self.towards_most(target, over, under, most)
    }

    /// The same, where this row may have another limit.
    pub fn towards_most(mut self, target: &'static Target, over: &str, under: &str, most: f64) -> Self {
        if let Some(value) = self.times.ratio(over, under) {
            self.counts.push(Count { target, value, most });
        }
        self
    }
}

pub struct Table {
    pub head: Vec<String>,
    pub rows: Vec<Vec<String>>,
    pub counts: Vec<Count>,
}

impl Table {
    /// A table of times and ratios; its first column is the input.
    pub fn of(subject: &str, columns: &[Column], measured: Vec<Measured>) -> Self {
        let head = std::iter::once(subject.into()).chain(columns.iter().map(named)).collect();
        let cells =
            |row: &Measured| columns.iter().map(|column| cell(&row.times, column)).collect::<Vec<_>>();
        let rows = measured.iter().map(|row| [vec![row.input.clone()], cells(row)].concat()).collect();
        Self { head, rows, counts: measured.into_iter().flat_map(|row| row.counts).collect() }
    }

    /// Adds a line that says why there are no figures.
    pub fn with_line(mut self, line: Option<String>) -> Self {
        let rest = vec![String::new(); self.head.len() - 1];
        self.rows.extend(line.map(|line| [vec![line], rest].concat()));
        self
    }

    pub fn text(&self) -> String {
        let line = |cells: &[String]| format!("| {} |\n", cells.join(" | "));
        let rule = format!("|{}\n", "---|".repeat(self.head.len()));
        line(&self.head) + &rule + &self.rows.iter().map(|cells| line(cells)).collect::<String>()
    }
}

fn named(column: &Column) -> String {
    match column {
        Column::Time(name) => format!("{name}, ms"),
        Column::Ratio(over, under) => format!("{over} / {under}"),
    }
}

fn cell(times: &Times, column: &Column) -> String {
    let shown = match column {
        Column::Time(name) => times.of(name).map(milliseconds),
        Column::Ratio(over, under) => times.ratio(over, under).map(ratio),
    };
    shown.unwrap_or("not there".into())
}

/// How many digits behind the point leave three that count, or more.
pub fn digits(time: f64) -> usize {
    (2 - time.max(1e-9).log10().floor() as i32).clamp(1, 6) as usize
}

pub fn milliseconds(time: f64) -> String {
    format!("{time:.0$}", digits(time))
}

/// Two digits behind the point; of a small ratio both would be 0.
pub fn ratio(value: f64) -> String {
    if value < 0.005 {
        format!("{value:.1e}")
    } else {
        format!("{value:.2}")
    }
}
