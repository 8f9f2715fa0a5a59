//! oracle_hunt [COUNT [LIMIT]]: looks for frames that show each wrong road (RULES 15.3), COUNT of each among the
//! first LIMIT frames of its hunt. Those in generate/hunted.rs were found so.
use oracle::generate::hunted::{Road, ROADS};

fn hunt(road: Road, count: usize, limit: u64) {
    let start = std::time::Instant::now();
    let mut found = Vec::new();
    for number in 0..limit {
        if found.len() == count {
            break;
        }
        let upload = road.frame(number);
        if road.shows(&upload) {
            println!("(Road::{road:?}, {number}), // {} by {}", upload.width, upload.height);
            found.push(number);
        }
    }
    println!("// {road:?}: {} found in {:?}", found.len(), start.elapsed());
}

fn main() {
    let mut words = std::env::args().skip(1).map(|word| word.parse().expect("a number"));
    let count = words.next().unwrap_or(4) as usize;
    let limit = words.next().unwrap_or(1_000_000);
    for road in ROADS {
        hunt(road, count, limit);
    }
}
