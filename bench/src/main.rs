//! bench [OPTION VALUE]..: the tables of docs/SPEED.md. `run` says the options, and calls it.
//! bench alone JOB WAY LIMIT: one way of a row that may take minutes, for the tables.
//! bench count LEVELS: one frame by the original and one by ours, for a profiler that counts instructions.
mod alone;
mod asked;
mod frames;
mod hostile;
mod instructions;
mod interleaved;
mod library;
mod lists;
mod long_lists;
mod others;
mod page;
mod parts;
mod photograph;
mod pictures;
mod responses;
mod settings;
mod sitting;
mod table;
mod targets;

use settings::Settings;
use sitting::Moment;
use std::process::ExitCode;
use table::Table;
use targets::Count;

type Measure = fn(&Settings) -> Table;

const TABLES: [(&str, Measure); 15] = [
    ("frames", frames::table),
    ("parts", parts::table),
    ("response", responses::whole),
    ("boxes", responses::boxes),
    ("retouch", responses::retouch),
    ("limits", responses::limits),
    ("peaks", lists::peaks),
    ("enough", lists::enough),
    ("centroids", lists::centroids),
    ("levels", lists::levels),
    ("merge", lists::merging),
    ("apart", lists::apart),
    ("million", long_lists::table),
    ("hostile", hostile::table),
    ("instructions", instructions::table),
];

/// A name, and what stands between its marks on the page.
type Text = (&'static str, String);

fn printed(name: &'static str, text: String) -> Text {
    println!("{name}:\n\n{text}");
    (name, text)
}

/// A table with its day and load.
fn measured(name: &'static str, measure: Measure, settings: &Settings, counts: &mut Vec<Count>) -> Text {
    let start = Moment::now();
    let table = measure(settings);
    counts.extend(&table.counts);
    printed(name, format!("{}\n\n{}", start.until_now(), table.text()))
}

/// Every table that is asked for, in one sitting.
fn sitting(settings: &Settings) -> Vec<Text> {
    let start = Moment::now();
    let mut counts = Vec::new();
    let mut texts = vec![printed("machine", sitting::machine(&settings.said()))];
    for (name, measure) in TABLES.into_iter().filter(|(name, _)| settings.has(name)) {
        texts.push(measured(name, measure, settings, &mut counts));
    }
    if settings.rows.is_empty() {
        let text = format!("{}\n\n{}", start.until_now(), targets::table(&counts).text());
        texts.push(printed("targets", text));
    }
    texts
}

fn written(path: &str, texts: &[Text]) -> Result<(), String> {
    let page = std::fs::read_to_string(path).map_err(|error| format!("{path}: {error}"))?;
    let page = texts.iter().try_fold(page, |page, (name, text)| page::with(&page, name, text))?;
    std::fs::write(path, page).map_err(|error| format!("{path}: {error}"))
}

fn tables(words: &[String]) -> Result<(), String> {
    let settings = Settings::read(words);
    let names = TABLES.map(|(name, _)| name);
    if let Some(row) = settings.rows.iter().find(|row| !names.contains(&row.as_str())) {
        return Err(format!("there are no rows {row}; there are {}", names.join(", ")));
    }
    let texts = sitting(&settings);
    settings.page.as_ref().map_or(Ok(()), |page| written(page, &texts))
}

fn main() -> ExitCode {
    let words: Vec<String> = std::env::args().skip(1).collect();
    let result = match &words.iter().map(String::as_str).collect::<Vec<_>>()[..] {
        ["count", levels] => {
            instructions::frames(levels.parse().expect("a number"));
            Ok(())
        }
        ["alone", job, way, limit] => {
            let prepared = hostile::prepared(job, way).or_else(|| long_lists::prepared(job, way));
            alone::run(prepared.expect("a job"), limit.parse().expect("seconds"));
            Ok(())
        }
        _ => tables(&words),
    };
    result.map_or_else(
        |said| {
            eprintln!("bench: {said}");
            ExitCode::from(2)
        },
        |()| ExitCode::SUCCESS,
    )
}
