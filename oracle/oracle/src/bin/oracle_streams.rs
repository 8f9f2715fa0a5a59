//! oracle_streams DIR N SEED: writes N random and N/5 damaged streams, the hunted frames and each refusal as
//! DIR/NAME.in, with what `corners` must print for each as DIR/NAME.out.
use oracle::compare::cases;
use oracle::program::corners;
use std::path::Path;

fn main() {
    let words: Vec<String> = std::env::args().skip(1).collect();
    let usage = "usage: oracle_streams DIR N SEED";
    let number = |i: usize| words.get(i).and_then(|w| w.parse().ok()).expect(usage);
    let folder = Path::new(words.first().expect(usage));
    std::fs::create_dir_all(folder).expect("a folder");
    for case in cases(number(1), number(2)) {
        let put = |ending: &str, bytes: &[u8]| {
            std::fs::write(folder.join(format!("{}.{ending}", case.name)), bytes).expect("a file");
        };
        put("in", &case.stream);
        put("out", corners(&case.stream).as_bytes());
    }
}
