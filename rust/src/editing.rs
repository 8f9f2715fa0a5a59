//! A list of corners that is edited.
use crate::lists::Lists;
use crate::{library, Corner, Refusal};

/// A corner that is shown, and the list's change number, by which it can be struck.
#[derive(Clone, Copy, Debug, PartialEq)]
pub struct Shown {
    pub corner: Corner,
    pub change: u32,
}

/// A list of corners from which false ones are struck in two steps: a corner is shown, and then struck by its place and
/// the change number that was shown with it. Each strike raises that number, and nothing else does: a strike that was
/// not refused has removed the very corner shown.
#[derive(Clone, Debug, Default, PartialEq)]
pub struct EditedList {
    lists: Lists,
    count: usize,
    change: u32,
}

impl EditedList {
    /// A list before any corner is struck.
    #[must_use]
    pub fn new(corners: &[Corner]) -> Self {
        Self::with_change(corners, 0)
    }

    /// A list that was put away with its change number.
    #[must_use]
    pub fn with_change(corners: &[Corner], change: u32) -> Self {
        Self { lists: Lists::of(corners), count: corners.len(), change }
    }

    /// The corners that are left, in their order.
    #[must_use]
    pub fn corners(&self) -> Vec<Corner> {
        self.lists.first(self.count)
    }

    /// How many corners are left.
    #[must_use]
    pub fn len(&self) -> usize {
        self.count
    }

    #[must_use]
    pub fn is_empty(&self) -> bool {
        self.count == 0
    }

    /// The list's change number.
    #[must_use]
    pub fn change(&self) -> u32 {
        self.change
    }

    /// The corner at a place, which counts from 0, and the list's change number.
    pub fn show(&self, place: usize) -> Result<Shown, Refusal> {
        library::show_corner(&self.lists, self.count, self.change, place)
    }

    /// Strikes the corner at a place, if `change` is the list's change number: later corners move up. A refusal leaves
    /// the list as it was.
    pub fn strike(&mut self, place: usize, change: u32) -> Result<(), Refusal> {
        library::strike_corner(&mut self.lists, &mut self.count, &mut self.change, place, change)
    }
}
