//! Small boards solved by trying every plan, with no rule of the calls in it.

use std::collections::BTreeMap;

use crate::board::{has, Board, MOST_TIPS};
use crate::sharing::pairs_in;

/// What every plan of a board shows together.
#[derive(Clone, PartialEq, Eq, Debug)]
pub struct Tried {
    /// The most pairs of a plan.
    pub most_pairs: u32,
    /// The plans by their number of placements off the tip that they use most.
    by_off: BTreeMap<usize, Alike>,
    /// For each number of pairs that a plan has, the tips that such plans use, line by line.
    by_pairs: BTreeMap<u32, Vec<u64>>,
    /// The most pairs of the plans with one tip or two, and the lowest such tips that reach them.
    with_two_tips: Option<(u32, (usize, usize))>,
    /// For each tip the fewest changes of the plans whose first line is on it.
    changes_from: BTreeMap<u8, usize>,
    /// For each number of different tips the most pairs of the plans that use this many.
    pairs_on: BTreeMap<usize, u32>,
}

/// The plans with one number of placements off.
#[derive(Clone, PartialEq, Eq, Debug)]
struct Alike {
    /// How many there are.
    plans: u64,
    /// The tips that one of them uses most.
    tips: u64,
    /// For each line, the tips that they use there.
    used: Vec<u64>,
}

impl Tried {
    /// The least number of placements off, and the plans that have it.
    fn least(&self) -> (usize, &Alike) {
        let (off, alike) = self.by_off.first_key_value().expect("a board has a plan");
        (*off, alike)
    }

    /// The least number of placements off the tip that a plan uses most.
    pub fn least_off(&self) -> usize {
        self.least().0
    }

    /// The tips that some plan uses most while having that least number of placements off.
    pub fn common_tips(&self) -> u64 {
        self.least().1.tips
    }

    /// How many plans are within k.
    pub fn plans_within(&self, k: usize) -> u64 {
        self.by_off.range(..=k).map(|(_, alike)| alike.plans).sum()
    }

    /// For each line, the tips that plans within k use there; nothing where there is no such plan.
    pub fn used_within(&self, k: usize) -> Option<Vec<u64>> {
        joined(self.by_off.range(..=k).map(|(_, alike)| &alike.used))
    }

    /// For each line, the tips that plans with at least so many pairs use there; nothing where there is no such plan.
    pub fn used_with(&self, pairs: u32) -> Option<Vec<u64>> {
        joined(self.by_pairs.range(pairs..).map(|(_, used)| used))
    }

    /// The most pairs of a plan with one tip or two, and of its tips the lowest first one, then the lowest second.
    pub fn with_two_tips(&self) -> Option<(u32, (usize, usize))> {
        self.with_two_tips
    }

    /// The fewest tip changes of a plan whose lines are placed in their order, with this tip mounted before them or none.
    pub fn least_changes(&self, mounted: Option<usize>) -> usize {
        let with_first = |(&tip, &changes): (&u8, &usize)| {
            changes + usize::from(mounted.is_some_and(|mounted| mounted != usize::from(tip)))
        };
        self.changes_from.iter().map(with_first).min().unwrap_or(0)
    }

    /// The most pairs of a plan, less the price of each tip that it uses.
    pub fn most_with_price(&self, price: u32) -> i64 {
        let worth = |(&tips, &pairs): (&usize, &u32)| i64::from(pairs) - i64::from(price) * tips as i64;
        self.pairs_on.iter().map(worth).max().expect("a board has a plan")
    }

    /// The least number of different tips that a plan uses, and the most pairs of the plans with as few.
    pub fn fewest_tips(&self) -> (usize, u32) {
        let (tips, pairs) = self.pairs_on.first_key_value().expect("a board has a plan");
        (*tips, *pairs)
    }

    /// The numbers of pairs that plans have, the lowest first.
    pub fn numbers_of_pairs(&self) -> impl Iterator<Item = u32> + '_ {
        self.by_pairs.keys().copied()
    }
}

/// For each line the tips that one of them has there; nothing where there are none.
fn joined<'a>(mut all: impl Iterator<Item = &'a Vec<u64>>) -> Option<Vec<u64>> {
    let first = all.next()?.clone();
    Some(all.fold(first, |joined, used| joined.iter().zip(used).map(|(one, other)| one | other).collect()))
}

/// The number of plans of a board, or the limit where there are more.
pub fn number_of_plans(board: &Board, limit: u64) -> u64 {
    let mut plans = 1;
    for line in board.lines() {
        plans *= u64::from(line.set.count_ones());
        if plans >= limit {
            return limit;
        }
    }
    plans
}

/// The lowest tip of the set that is not below the given one.
fn tip_from(set: u64, from: usize) -> Option<usize> {
    (from..MOST_TIPS).find(|&tip| has(set, tip))
}

/// Puts the next plan in place of the given one; false after the last plan.
fn next_plan(sets: &[u64], plan: &mut [u8]) -> bool {
    for line in 0..plan.len() {
        if let Some(tip) = tip_from(sets[line], usize::from(plan[line]) + 1) {
            plan[line] = tip as u8;
            return true;
        }
        plan[line] = tip_from(sets[line], 0).expect("a line has a tip") as u8;
    }
    false
}

/// Tries every plan of a sound board; a line is never split over two tips.
pub fn try_every_plan(board: &Board) -> Tried {
    let count = board.count;
    let sets = &board.sets[..count];
    let mut tried = Tried {
        most_pairs: 0,
        by_off: BTreeMap::new(),
        by_pairs: BTreeMap::new(),
        with_two_tips: None,
        changes_from: BTreeMap::new(),
        pairs_on: BTreeMap::new(),
    };
    let mut plan = vec![0; count];
    for line in 0..count {
        plan[line] = tip_from(sets[line], 0).expect("a line has a tip") as u8;
    }
    loop {
        let placed = board.placed(&plan);
        let pairs = pairs_in(&placed);
        tried.most_pairs = tried.most_pairs.max(pairs);
        if let Some(&first) = plan.first() {
            let changes = plan.windows(2).filter(|pair| pair[0] != pair[1]).count();
            let least = tried.changes_from.entry(first).or_insert(changes);
            *least = changes.min(*least);
        }
        let used = tried.by_pairs.entry(pairs).or_insert_with(|| vec![0; count]);
        for line in 0..count {
            used[line] |= 1 << plan[line];
        }
        let mut placements_on = [0; MOST_TIPS];
        for &tip in &placed {
            placements_on[usize::from(tip)] += 1;
        }
        let used: Vec<usize> = (0..MOST_TIPS).filter(|&tip| placements_on[tip] > 0).collect();
        let most = tried.pairs_on.entry(used.len()).or_insert(pairs);
        *most = pairs.max(*most);
        if let [u] | [u, _] = used[..] {
            let choice = (pairs, (u, used[used.len() - 1]));
            let is_better = |best: (u32, (usize, usize))| pairs > best.0 || pairs == best.0 && choice.1 < best.1;
            if tried.with_two_tips.is_none_or(is_better) {
                tried.with_two_tips = Some(choice);
            }
        }
        let largest = *placements_on.iter().max().unwrap();
        let unused = Alike { plans: 0, tips: 0, used: vec![0; count] };
        let alike = tried.by_off.entry(placed.len() - largest).or_insert(unused);
        alike.plans += 1;
        for line in 0..count {
            alike.used[line] |= 1 << plan[line];
        }
        for tip in 0..MOST_TIPS {
            if placements_on[tip] > 0 && placements_on[tip] == largest {
                alike.tips |= 1 << tip;
            }
        }
        if !next_plan(sets, &mut plan) {
            return tried;
        }
    }
}
