//! The placing order: fine parts first, tall ones last, each part within its positions, and rules of two parts.

use std::cmp::Reverse;
use std::collections::BinaryHeap;

use crate::refusal;

/// The most parts of an order.
pub const MOST_PARTS: usize = 128;

/// A part to be placed.
#[derive(Clone, Copy, PartialEq, Eq, Debug)]
pub struct Part {
    /// The first position where it may be, counted from 0.
    pub first: u32,
    /// The last position where it may be.
    pub last: u32,
    /// Of fine pitch: before each part that is not, unless it is tall, when this is ignored.
    pub fine: bool,
    /// Tall: after each part that is not.
    pub tall: bool,
}

impl Part {
    /// Whether it goes with the fine parts: height decides.
    fn is_fine(&self) -> bool {
        self.fine && !self.tall
    }
}

/// A rule: the part with the first number is placed earlier than the one with the second.
pub type Rule = (u32, u32);

/// The positions that a part can have, when all that must be before it and behind it is looked at too.
#[derive(Clone, Copy)]
pub(crate) struct Window {
    pub(crate) first: i64,
    pub(crate) last: i64,
}

/// Parts and rules as they are handed over.
#[derive(Clone, Copy, Debug)]
pub struct Placing<'a> {
    pub parts: &'a [Part],
    pub rules: &'a [Rule],
}

impl Placing<'_> {
    /// The number and place of a refusal for parts and rules alone; 0 for none.
    pub fn refusal(&self) -> (u32, usize) {
        let count = self.parts.len();
        if count > MOST_PARTS {
            return (refusal::BAD_WINDOW, 0);
        }
        for (number, part) in self.parts.iter().enumerate() {
            if part.first > part.last || part.last as usize >= count {
                return (refusal::BAD_WINDOW, number);
            }
        }
        for (number, &(earlier, later)) in self.rules.iter().enumerate() {
            if earlier as usize >= count || later as usize >= count || earlier == later {
                return (refusal::BAD_RULE, number);
            }
        }
        (refusal::ACCEPTED, 0)
    }

    /// Whether an order, the part at each position, has each part once and obeys windows, flags and rules.
    pub(crate) fn is_obeyed_by(&self, order: &[u8]) -> bool {
        let count = self.parts.len();
        let mut position = vec![None; count];
        for (at, &part) in order.iter().enumerate() {
            match position.get_mut(usize::from(part)) {
                Some(place @ None) => *place = Some(at),
                _ => return false,
            }
        }
        let Some(position) = position.into_iter().collect::<Option<Vec<usize>>>() else {
            return false;
        };
        let within = |part: usize| {
            let Part { first, last, .. } = self.parts[part];
            (first as usize..=last as usize).contains(&position[part])
        };
        let by_flags = |one: usize, other: usize| !self.by_flags(one, other) || position[one] < position[other];
        (0..count).all(within)
            && (0..count).all(|one| (0..count).all(|other| by_flags(one, other)))
            && self.rules.iter().all(|&(one, other)| position[one as usize] < position[other as usize])
    }

    /// Whether the flags put one part before another: fine ones come first, tall ones last.
    fn by_flags(&self, one: usize, other: usize) -> bool {
        let (one, other) = (self.parts[one], self.parts[other]);
        one.is_fine() && !other.is_fine() || !one.tall && other.tall
    }

    /// For each part the parts that must be before it.
    pub(crate) fn before(&self) -> Vec<Vec<usize>> {
        let count = self.parts.len();
        let mut is_before = vec![vec![false; count]; count];
        for one in 0..count {
            for other in 0..count {
                is_before[other][one] = self.by_flags(one, other);
            }
        }
        for &(one, other) in self.rules {
            is_before[other as usize][one as usize] = true;
        }
        is_before.iter().map(|row| (0..count).filter(|&one| row[one]).collect()).collect()
    }

    /// The parts in some order in which each is behind all that must be before it; `None` if some form a cycle.
    pub(crate) fn sorted(&self, before: &[Vec<usize>]) -> Option<Vec<usize>> {
        let mut left: Vec<usize> = (0..self.parts.len()).collect();
        let mut sorted = Vec::new();
        while !left.is_empty() {
            let is_free = |part: &usize| !before[*part].iter().any(|one| left.contains(one));
            let at = left.iter().position(is_free)?;
            sorted.push(left.remove(at));
        }
        Some(sorted)
    }

    /// The windows, made so narrow that of two parts the earlier begins and ends before the later.
    pub(crate) fn narrowed(&self, before: &[Vec<usize>], sorted: &[usize]) -> Vec<Window> {
        let own = |part: &Part| Window { first: part.first.into(), last: part.last.into() };
        let mut windows: Vec<Window> = self.parts.iter().map(own).collect();
        for &part in sorted {
            for &one in &before[part] {
                windows[part].first = windows[part].first.max(windows[one].first + 1);
            }
        }
        for &part in sorted.iter().rev() {
            for &one in &before[part] {
                windows[one].last = windows[one].last.min(windows[part].last - 1);
            }
        }
        windows
    }

    /// The least order that obeys, or nothing where none does.
    pub fn least_order(&self) -> Option<Vec<u8>> {
        self.order_by(|_, _| true)
    }

    /// The order that obeys, or nothing where none does, in which each position has the first part with which the rest can
    /// still be placed: the parts wanted there by the part before it are tried first, and each kind by number.
    pub(crate) fn order_by(&self, is_wanted: impl Fn(Option<usize>, usize) -> bool) -> Option<Vec<u8>> {
        let before = self.before();
        let sorted = self.sorted(&before)?;
        let windows = self.narrowed(&before, &sorted);
        let mut left: Vec<usize> = (0..self.parts.len()).collect();
        if !can_be_placed(&windows, &left, 0) {
            return None;
        }
        let mut order = Vec::new();
        for position in 0..self.parts.len() {
            let fits = |at: usize| {
                let part = left[at];
                let rest: Vec<usize> = left.iter().copied().filter(|&other| other != part).collect();
                windows[part].has(position)
                    && !before[part].iter().any(|one| rest.contains(one))
                    && can_be_placed(&windows, &rest, position + 1)
            };
            // What could be placed before this position still can be with some part at it.
            let before = order.last().map(|&part| usize::from(part));
            let wanted = (0..left.len()).filter(|&at| is_wanted(before, left[at])).find(|&at| fits(at));
            let at = wanted.or_else(|| (0..left.len()).find(|&at| fits(at)))?;
            order.push(left.remove(at) as u8);
        }
        Some(order)
    }
}

impl Window {
    fn has(&self, position: usize) -> bool {
        (self.first..=self.last).contains(&(position as i64))
    }
}

/// Whether these parts fill the positions from the given one on, each within its window: at each position, of the parts
/// that have begun, the one that ends first is taken.
pub(crate) fn can_be_placed(windows: &[Window], parts: &[usize], from: usize) -> bool {
    let mut waiting: Vec<Window> = parts.iter().map(|&part| windows[part]).collect();
    waiting.sort_by_key(|window| Reverse(window.first));
    let mut begun = BinaryHeap::new();
    (from as i64..).take(parts.len()).all(|position| {
        while waiting.last().is_some_and(|window| window.first <= position) {
            begun.extend(waiting.pop().map(|window| Reverse(window.last)));
        }
        begun.pop().is_some_and(|Reverse(last)| position <= last)
    })
}

/// The least order that obeys by trying every order, lowest first; for few parts alone.
pub fn try_every_order(placing: &Placing) -> Option<Vec<u8>> {
    let mut order: Vec<u8> = (0..placing.parts.len() as u8).collect();
    loop {
        if placing.is_obeyed_by(&order) {
            return Some(order);
        }
        if !next_order(&mut order) {
            return None;
        }
    }
}

/// Puts the next order in place of the given one; false after the last.
pub(crate) fn next_order(order: &mut [u8]) -> bool {
    let Some(at) = (1..order.len()).rev().find(|&at| order[at - 1] < order[at]) else {
        return false;
    };
    let (low, high) = (at - 1, (at..order.len()).rev().find(|&high| order[high] > order[at - 1]));
    order.swap(low, high.unwrap_or(at));
    order[at..].reverse();
    true
}

/// The number of the call, 0 where it is accepted, and the part or rule that its refusal is about, else 0.
#[derive(Clone, Copy, PartialEq, Eq, Debug)]
pub struct Ordered {
    pub number: u32,
    pub place: usize,
}

/// Writes the least order that obeys, one byte a position, and nothing where the call is refused.
pub fn order_parts(placing: &Placing, order: &mut [u8]) -> Ordered {
    let (number, place) = placing.refusal();
    if number != refusal::ACCEPTED {
        return Ordered { number, place };
    }
    if order.len() < placing.parts.len() {
        return Ordered { number: refusal::SHORT_ORDER, place: 0 };
    }
    match placing.least_order() {
        None => Ordered { number: refusal::NO_ORDER, place: 0 },
        Some(least) => {
            order[..least.len()].copy_from_slice(&least);
            Ordered { number: refusal::ACCEPTED, place: 0 }
        }
    }
}
