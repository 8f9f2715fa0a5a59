//! Corners struck from a list in two steps, over the linked library.
mod common;

use common::Numbers;
use zakdomp::raw::{zakdomp_show_corner, zakdomp_strike_corner};
use zakdomp::{Corner, EditedList, Refusal, Shown};

/// Corners with four fields that tell them apart.
fn corners(count: u8) -> Vec<Corner> {
    let corner = |i: u8| Corner {
        x: f32::from(i),
        y: 0.5 + f32::from(i),
        strength: -f32::from(i),
        neighbours: 1000 + u32::from(i),
    };
    (1..=count).map(corner).collect()
}

#[test]
fn shown_and_struck() {
    let all = corners(3);
    let mut list = EditedList::new(&all);
    assert_eq!(list.show(1), Ok(Shown { corner: all[1], change: 0 }));
    assert_eq!((list.corners(), list.change()), (all.clone(), 0));
    assert_eq!(list.strike(1, 0), Ok(()));
    assert_eq!((list.corners(), list.len(), list.change()), (vec![all[0], all[2]], 2, 1));
    assert_eq!((list.strike(1, 0), list.strike(1, 2)), (Err(Refusal::Changed), Err(Refusal::Changed)));
    assert_eq!(list.strike(2, 1), Err(Refusal::Beyond));
    assert_eq!(list.show(2), Err(Refusal::Beyond));
    assert_eq!(list.show(1), Ok(Shown { corner: all[2], change: 1 }));
    assert_eq!((list.strike(0, 1), list.strike(0, 2), list.is_empty()), (Ok(()), Ok(()), true));
    assert_eq!((list.strike(0, 2), list.strike(0, 3)), (Err(Refusal::Changed), Err(Refusal::Beyond)));
}

#[test]
fn refusals_in_their_order() {
    let mut list = EditedList::with_change(&corners(3), u32::MAX);
    let before = list.clone();
    assert_eq!(list.strike(0, u32::MAX), Err(Refusal::Largest));
    assert_eq!(list.strike(9, u32::MAX), Err(Refusal::Beyond));
    assert_eq!(list.strike(9, 5), Err(Refusal::Changed));
    assert_eq!(list, before);
    assert_eq!(list.show(2).map(|shown| shown.change), Ok(u32::MAX));
    let mut before = EditedList::with_change(&corners(3), u32::MAX - 1);
    assert_eq!((before.strike(2, u32::MAX - 1), before.change(), before.len()), (Ok(()), u32::MAX, 2));
    assert_eq!([Refusal::Changed, Refusal::Beyond, Refusal::Largest].map(Refusal::number), [16, 17, 18]);
    assert_eq!(Refusal::Beyond.to_string(), "the place is beyond the list (number 17)");
}

/// The shortest slice counts, and no slice is changed after the list.
#[test]
#[rustfmt::skip]
fn slices_of_different_lengths() {
    let (mut xs, mut ys) = (vec![1.0, 2.0, 3.0, 9.0, 9.0], vec![1.0, 2.0, 3.0, 9.0]);
    let (mut strengths, mut neighbours) = (vec![1.0, 2.0, 3.0, 9.0, 9.0, 9.0], vec![1, 2, 3, 9, 9]);
    let (mut count, mut change) = (5, 7);
    let (mut x, mut y, mut strength, mut neighbour_count, mut shown) = (-1.0, -1.0, -1.0, 77, 77);
    for due in [10, 0] {
        // SAFETY: every slice is whole, none overlaps another, and the calls keep none.
        let (first, second) = unsafe {
            (
                zakdomp_show_corner(
                    xs.as_ptr(), xs.len(), ys.as_ptr(), ys.len(), strengths.as_ptr(), strengths.len(),
                    neighbours.as_ptr(), neighbours.len(), count, change, 0,
                    &raw mut x, &raw mut y, &raw mut strength, &raw mut neighbour_count, &raw mut shown,
                ),
                zakdomp_strike_corner(
                    xs.as_mut_ptr(), xs.len(), ys.as_mut_ptr(), ys.len(), strengths.as_mut_ptr(), strengths.len(),
                    neighbours.as_mut_ptr(), neighbours.len(), &raw mut count, &raw mut change, 0, 7,
                ),
            )
        };
        assert_eq!((first, second), (due, due));
        if due == 10 {
            assert_eq!((count, change, x, neighbour_count, shown), (5, 7, -1.0, 77, 77));
            assert_eq!((&ys[..], &neighbours[..]), (&[1.0, 2.0, 3.0, 9.0][..], &[1, 2, 3, 9, 9][..]));
            count = 3;
        }
    }
    assert_eq!((count, change, x, y, strength, neighbour_count, shown), (2, 8, 1.0, 1.0, 1.0, 1, 7));
    assert_eq!((xs, ys), (vec![2.0, 3.0, 0.0, 9.0, 9.0], vec![2.0, 3.0, 0.0, 9.0]));
    assert_eq!((strengths, neighbours), (vec![2.0, 3.0, 0.0, 9.0, 9.0, 9.0], vec![2, 3, 0, 9, 9]));
}

/// Any calls between: what a strike removes that is not refused is the corner that was shown with its number.
#[test]
fn what_was_shown_is_struck() {
    let mut numbers = Numbers(10);
    let mut struck = 0;
    for _ in 0..300 {
        let mut kept = corners(numbers.byte(12));
        let mut list = EditedList::new(&kept);
        let mut seen: Vec<(usize, Shown)> = vec![];
        for _ in 0..40 {
            let place = numbers.below(13);
            if numbers.below(2) == 0 {
                let shown = list.show(place);
                assert_eq!(shown.map(|s| s.corner).ok(), kept.get(place).copied());
                seen.extend(shown.map(|s| (place, s)));
            } else if let Some(&(place, shown)) = seen.get(numbers.below(seen.len().max(1))) {
                let (before, due) = (list.clone(), shown.change == list.change());
                assert_eq!(
                    list.strike(place, shown.change),
                    if due { Ok(()) } else { Err(Refusal::Changed) }
                );
                if due {
                    assert_eq!(kept.remove(place), shown.corner);
                    struck += 1;
                } else {
                    assert_eq!(list, before);
                }
            }
            assert_eq!((list.corners(), list.len()), (kept.clone(), kept.len()));
        }
    }
    assert!(struck > 300, "{struck}");
}
