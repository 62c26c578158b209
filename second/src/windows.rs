//! The first and the last position that each part has in any order that obeys: each position is tried by itself, from the
//! first on and from the last back, with the part bound to it.

use crate::placing::{can_be_placed, next_order, Ordered, Placing, Window};
use crate::refusal;

/// What must be before each part, and the parts so sorted.
struct Sorted {
    before: Vec<Vec<usize>>,
    sorted: Vec<usize>,
}

impl Placing<'_> {
    /// Whether some order that obeys has the part at the position.
    fn can_be_at(&self, rules: &Sorted, part: usize, position: u32) -> bool {
        let mut parts = self.parts.to_vec();
        (parts[part].first, parts[part].last) = (position, position);
        let windows = Placing { parts: &parts, ..*self }.narrowed(&rules.before, &rules.sorted);
        let all: Vec<usize> = (0..parts.len()).collect();
        can_be_placed(&windows, &all, 0)
    }

    /// For each part its first and its last position; nothing where no order obeys.
    pub fn windows(&self) -> Option<Vec<(u8, u8)>> {
        let before = self.before();
        let sorted = self.sorted(&before)?;
        let rules = Sorted { before, sorted };
        let window = |(part, narrow): (usize, &Window)| {
            let positions = || (narrow.first..=narrow.last).map(|position| position as u32);
            let first = positions().find(|&position| self.can_be_at(&rules, part, position))?;
            let last = positions().rev().find(|&position| self.can_be_at(&rules, part, position))?;
            Some((first as u8, last as u8))
        };
        self.narrowed(&rules.before, &rules.sorted).iter().enumerate().map(window).collect()
    }
}

/// The same by trying every order; for few parts alone.
pub fn try_every_order_for_windows(placing: &Placing) -> Option<Vec<(u8, u8)>> {
    let mut order: Vec<u8> = (0..placing.parts.len() as u8).collect();
    let mut found: Option<Vec<(u8, u8)>> = None;
    loop {
        if placing.is_obeyed_by(&order) {
            let windows = found.get_or_insert_with(|| vec![(u8::MAX, 0); order.len()]);
            for (position, &part) in order.iter().enumerate() {
                let (first, last) = &mut windows[usize::from(part)];
                (*first, *last) = ((*first).min(position as u8), (*last).max(position as u8));
            }
        }
        if !next_order(&mut order) {
            return found;
        }
    }
}

/// Writes the first and the last position of each part, one byte a part, and nothing where the call is refused.
pub fn find_windows(placing: &Placing, first: &mut [u8], last: &mut [u8]) -> Ordered {
    let (number, place) = placing.refusal();
    if number != refusal::ACCEPTED {
        return Ordered { number, place };
    }
    if first.len().min(last.len()) < placing.parts.len() {
        return Ordered { number: refusal::SHORT_ORDER, place: 0 };
    }
    let Some(windows) = placing.windows() else {
        return Ordered { number: refusal::NO_ORDER, place: 0 };
    };
    for (part, window) in windows.into_iter().enumerate() {
        (first[part], last[part]) = window;
    }
    Ordered { number: refusal::ACCEPTED, place: 0 }
}
