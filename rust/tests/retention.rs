//! What may be deleted, over the linked library.
use zakdomp::{holding, holdings, Holding, Refusal};

const LATE: u64 = 1 << 40;
/// The first second of day 90.
const NOW: u64 = 90 * 86_400;

fn stream(time: u64, items: &[(u8, u64)]) -> Vec<u8> {
    let records = items.iter().flat_map(|&(kind, start)| std::iter::once(kind).chain(start.to_le_bytes()));
    time.to_le_bytes().into_iter().chain(records).collect()
}

#[test]
fn each_kind_at_its_ends() {
    use Holding::{Gone, Held, NotYet};
    let cases = [
        (1, 0, NOW, Held),
        (1, 0, LATE, Held),
        (1, NOW + 1, NOW, NotYet),
        (2, 0, NOW - 1, Held),
        (2, 0, NOW, Gone),
        (2, 86_399, NOW, Gone),
        (2, 86_400, NOW, Held),
        (2, NOW + 1, NOW, NotYet),
        (3, NOW, NOW, Held),
        (3, NOW - 604_799, NOW, Held),
        (3, NOW - 604_800, NOW, Gone),
        (3, LATE, LATE - 1, NotYet),
    ];
    for (kind, start, time, told) in cases {
        assert_eq!(holding(kind, start, time), Ok(told), "{kind} {start} {time}");
    }
}

#[test]
fn refusals() {
    for kind in [0, 4, 255] {
        assert_eq!(holding(kind, LATE + 1, LATE + 1), Err(Refusal::Kind));
    }
    for (start, time) in [(LATE + 1, 0), (0, LATE + 1), (u64::MAX, u64::MAX)] {
        assert_eq!(holding(1, start, time), Err(Refusal::Late));
    }
    let text = holding(1, LATE + 1, 0).unwrap_err().to_string();
    assert_eq!(text, "a start or a time is above 2^40 (number 20)");
    assert_eq!(holding(4, 0, 0).unwrap_err().number(), 6);
}

#[test]
fn streams() {
    let items = [(1, 0), (2, 0), (2, 86_400), (3, NOW - 604_800), (1, NOW + 1)];
    let whole = stream(NOW, &items);
    assert_eq!(holdings(&whole), "H\nG\nH\nG\nN\n");
    assert_eq!(holdings(&whole[..whole.len() - 1]), "H\nG\nH\nG\nrefused 7\n");
    assert_eq!(holdings(&stream(NOW, &[(1, 0), (4, LATE + 1), (1, 0)])), "H\nrefused 6\n");
    assert_eq!(holdings(&stream(NOW, &[(1, LATE), (1, LATE + 1), (1, 0)])), "N\nrefused 20\n");
    assert_eq!(holdings(&stream(LATE, &[])), "");
    assert_eq!(holdings(&stream(LATE + 1, &items)), "refused 20\n");
    assert_eq!(holdings(&[0; 7]), "refused 7\n");
    assert_eq!(holdings(&[]), "refused 7\n");
}

#[test]
fn no_more_than_65536_records() {
    let most = stream(NOW, &vec![(1, 0); 65_536]);
    let text = holdings(&most);
    assert_eq!(text, "H\n".repeat(65_536));
    assert_eq!(holdings(&[most, vec![9]].concat()), text);
    let last_refused = [stream(NOW, &vec![(1, 0); 65_535]), vec![1, 0]].concat();
    assert_eq!(holdings(&last_refused), "H\n".repeat(65_535) + "refused 7\n");
}
