//! Why no placing order satisfies the rules.

use std::cmp::Reverse;
use std::collections::{BTreeSet, VecDeque};
use std::iter;

use library::Part;

/// A rule: the part with the first number is placed before the one with the second.
pub type Rule = (u32, u32);

/// Why one part is placed before another.
#[derive(Clone, Copy, PartialEq, Eq, Debug)]
pub enum Because {
    /// The rule with this number says so.
    Rule(usize),
    /// Fine parts come before all other ones.
    Fine,
    /// Tall parts come after all other ones.
    Tall,
}

/// Why there is no order.
#[derive(Clone, PartialEq, Eq, Debug)]
pub enum OrderFault {
    /// Each of these parts must be before the next one, and the last before the first.
    Cycle(Vec<(usize, Because)>),
    /// The first position of the part is after its last.
    NoPosition { part: usize, window: Window },
    /// These parts must be at the positions from first to last, and there are more parts than positions.
    TooFewPositions { first: i64, last: i64, parts: Vec<(usize, Window)> },
}

/// The positions that a part can have, with the parts before it and behind it placed too.
#[derive(Clone, Copy, PartialEq, Eq, Debug)]
pub struct Window {
    pub first: i64,
    pub last: i64,
    /// The part before it that keeps it from its own first positions.
    pub after: Option<usize>,
    /// The part behind it that keeps it from its own last positions.
    pub before: Option<usize>,
}

/// The kinds of parts, in the order in which they are placed. Of a tall part the flag fine is ignored.
#[derive(Clone, Copy, PartialEq, Eq, PartialOrd, Ord)]
enum Kind {
    Fine,
    Plain,
    Tall,
}

fn kind_of(part: &Part) -> Kind {
    match (part.tall, part.fine) {
        (true, _) => Kind::Tall,
        (false, true) => Kind::Fine,
        (false, false) => Kind::Plain,
    }
}

/// Parts, and the reasons why one is before another.
pub struct Placing<'a> {
    parts: &'a [Part],
    /// Why the part of the row is before the part of the column.
    reasons: Vec<Vec<Option<Because>>>,
}

impl Placing<'_> {
    /// Every rule must name two of these parts.
    pub fn new<'a>(parts: &'a [Part], rules: &[Rule]) -> Placing<'a> {
        let by_kind = |one: &Part, other: &Part| match (kind_of(one), kind_of(other)) {
            (one, other) if one >= other => None,
            (Kind::Fine, _) => Some(Because::Fine),
            _ => Some(Because::Tall),
        };
        let row = |one: &Part| parts.iter().map(|other| by_kind(one, other)).collect();
        let mut reasons: Vec<Vec<Option<Because>>> = parts.iter().map(row).collect();
        // A rule counts before the kinds, and the first of equal rules before the others.
        for (rule, &(one, other)) in rules.iter().enumerate().rev() {
            reasons[one as usize][other as usize] = Some(Because::Rule(rule));
        }
        Placing { parts, reasons }
    }

    /// Why one part is before another; nothing if it need not be.
    pub fn because(&self, one: usize, other: usize) -> Option<Because> {
        self.reasons[one][other]
    }

    /// Why there is no order; nothing if there is one. Cycles come first, then parts without a position.
    pub fn fault(&self) -> Option<OrderFault> {
        let row = match self.in_a_row() {
            Ok(row) => row,
            Err(stuck) => return Some(OrderFault::Cycle(self.shortest_cycle(&stuck))),
        };
        let windows = self.windows(&row);
        match windows.iter().position(|window| window.first > window.last) {
            Some(part) => Some(OrderFault::NoPosition { part, window: windows[part] }),
            None => too_few_positions(&windows),
        }
    }

    /// The parts that must be before this one.
    fn all_before(&self, part: usize) -> impl Iterator<Item = usize> + '_ {
        (0..self.parts.len()).filter(move |&one| self.because(one, part).is_some())
    }

    /// The parts that must be behind this one.
    fn all_behind(&self, part: usize) -> impl Iterator<Item = usize> + '_ {
        (0..self.parts.len()).filter(move |&other| self.because(part, other).is_some())
    }

    /// All parts in a row, each behind those that must be before it: at each place the lowest part that can be next. If no
    /// part can be next, the error has those that are left.
    fn in_a_row(&self) -> Result<Vec<usize>, Vec<usize>> {
        let count = self.parts.len();
        let mut awaited: Vec<usize> = (0..count).map(|part| self.all_before(part).count()).collect();
        let mut ready: BTreeSet<usize> = (0..count).filter(|&part| awaited[part] == 0).collect();
        let mut row = Vec::new();
        while let Some(part) = ready.pop_first() {
            row.push(part);
            for other in self.all_behind(part) {
                awaited[other] -= 1;
                if awaited[other] == 0 {
                    ready.insert(other);
                }
            }
        }
        if row.len() == count {
            Ok(row)
        } else {
            Err((0..count).filter(|&part| awaited[part] > 0).collect())
        }
    }

    /// A shortest cycle of parts of which none can be next, the first of equally short ones.
    fn shortest_cycle(&self, stuck: &[usize]) -> Vec<(usize, Because)> {
        let cycles = stuck.iter().filter_map(|&part| self.cycle_from(stuck, part));
        let cycle = cycles.min_by_key(Vec::len).expect("stuck parts have a cycle");
        let next = cycle.iter().cycle().skip(1);
        let step = |(&one, &other): (&usize, &usize)| (one, self.because(one, other).expect("one is before the other"));
        cycle.iter().zip(next).map(step).collect()
    }

    /// A shortest cycle that begins with this part, each part of which must be before the next. The search goes backwards,
    /// from a part to those before it.
    fn cycle_from(&self, stuck: &[usize], start: usize) -> Option<Vec<usize>> {
        let mut next_of = vec![None; self.parts.len()];
        let mut reached = VecDeque::from([start]);
        while let Some(part) = reached.pop_front() {
            for one in self.all_before(part).filter(|one| stuck.contains(one)) {
                if one == start {
                    let way = iter::successors(Some(part), |&at: &usize| next_of[at]);
                    return Some(iter::once(start).chain(way.take_while(|&at| at != start)).collect());
                }
                if next_of[one].is_none() {
                    next_of[one] = Some(part);
                    reached.push_back(one);
                }
            }
        }
        None
    }

    /// The window of each part: of two parts the earlier begins and ends before the later.
    fn windows(&self, row: &[usize]) -> Vec<Window> {
        let own = |part: &Part| Window { first: part.first.into(), last: part.last.into(), after: None, before: None };
        let mut windows: Vec<Window> = self.parts.iter().map(own).collect();
        for &part in row {
            // Of several that begin last, the one with the lowest number is named.
            let latest = self.all_before(part).max_by_key(|&one| (windows[one].first, Reverse(one)));
            if let Some(one) = latest.filter(|&one| windows[one].first >= windows[part].first) {
                windows[part].first = windows[one].first + 1;
                windows[part].after = Some(one);
            }
        }
        for (at, &part) in row.iter().enumerate().rev() {
            // Of several that end first, the last one of the row is named.
            let behind = row[at + 1..].iter().rev().copied().filter(|&other| self.because(part, other).is_some());
            let soonest = behind.min_by_key(|&other| windows[other].last);
            if let Some(other) = soonest.filter(|&other| windows[other].last <= windows[part].last) {
                windows[part].last = windows[other].last - 1;
                windows[part].before = Some(other);
            }
        }
        windows
    }
}

/// The fewest positions that are too few for the parts that must be at them, the first of equally few.
fn too_few_positions(windows: &[Window]) -> Option<OrderFault> {
    let count = windows.len() as i64;
    let stretches = (1..=count).flat_map(|length| (0..=count - length).map(move |first| (first, first + length - 1)));
    for (first, last) in stretches {
        let is_within = |window: &Window| first <= window.first && window.last <= last;
        let within = windows.iter().copied().enumerate().filter(|(_, window)| is_within(window));
        let parts: Vec<(usize, Window)> = within.collect();
        if parts.len() as i64 > last - first + 1 {
            return Some(OrderFault::TooFewPositions { first, last, parts });
        }
    }
    None
}
