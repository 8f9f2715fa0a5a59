//! oracle_sample DIR [SEED]: writes the sample that SAMPLE.md describes into DIR and prints what each file holds.
use oracle::sample::{files, format, File, SEED};
use std::path::Path;

fn describe(file: &File, size: usize) {
    let refusals: Vec<String> = file
        .refusals
        .iter()
        .filter(|(&number, _)| number > 0)
        .map(|(number, count)| format!("{number}:{count}"))
        .collect();
    println!(
        "{:<14} {:>8} bytes {:>5} records, largest body {:>6}; refusals {}",
        file.name,
        size,
        file.records,
        file.largest_body,
        refusals.join(" ")
    );
}

fn main() {
    let mut words = std::env::args().skip(1);
    let folder = words.next().expect("usage: oracle_sample DIR [SEED]");
    let seed = words.next().map_or(SEED, |word| word.parse().expect("a number"));
    std::fs::create_dir_all(&folder).expect("a folder");
    let mut total = 0;
    for file in files(seed) {
        let bytes = file.finished();
        assert_eq!(format::walk(&bytes), Ok(file.records), "{}", file.name);
        std::fs::write(Path::new(&folder).join(file.name), &bytes).expect("a file");
        describe(&file, bytes.len());
        total += bytes.len();
    }
    println!("{total} bytes in all");
}
