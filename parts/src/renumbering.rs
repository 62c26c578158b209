//! An order of the tips in the rack in which every part is a run.

use crate::job::{named_tips, Job};
use crate::MOST_TIPS;

/// The most tips of which orders are tried.
pub const MOST_TRIED: usize = 10;

/// What is known of such an order.
#[derive(Clone, PartialEq, Eq, Debug)]
pub enum Renumbering {
    /// The tips that some part has, in the first such order.
    Order(Vec<usize>),
    /// There is none.
    Impossible,
    /// So many tips are too many to try their orders.
    TooMany(usize),
}

impl Renumbering {
    pub fn of(job: &Job) -> Renumbering {
        let tips: Vec<usize> = (0..MOST_TIPS).filter(|tip| named_tips(job) >> tip & 1 == 1).collect();
        if tips.len() > MOST_TRIED {
            return Renumbering::TooMany(tips.len());
        }
        let mut trying = Trying { sets: job.lines.iter().map(|line| line.set).collect(), tips, failed: Vec::new() };
        trying.sets.sort_unstable();
        trying.sets.dedup();
        match trying.order_behind(0) {
            Some(mut order) => {
                order.reverse();
                Renumbering::Order(order)
            }
            None => Renumbering::Impossible,
        }
    }

    /// What is known, in words that follow a line that is no run.
    pub fn in_words(&self) -> String {
        match self {
            Renumbering::Order(order) => {
                let order: Vec<String> = order.iter().map(usize::to_string).collect();
                format!("with the tips in the order {} every part is a run", order.join(" "))
            }
            Renumbering::Impossible => "no order of the tips makes every part a run".into(),
            Renumbering::TooMany(tips) => {
                format!("orders are tried for up to {MOST_TRIED} tips, and parts have {tips}")
            }
        }
    }
}

/// The sets of the parts, and what was tried.
struct Trying {
    sets: Vec<u64>,
    tips: Vec<usize>,
    /// The sets of tips behind which no order goes on. Their own order makes no difference.
    failed: Vec<u64>,
}

impl Trying {
    /// The tips behind those that are placed, the last one first, so that every set has its tips next to one another.
    fn order_behind(&mut self, placed: u64) -> Option<Vec<usize>> {
        let is_placed = |tip: &usize| placed >> tip & 1 == 1;
        if self.tips.iter().all(is_placed) {
            return Some(Vec::new());
        }
        if self.failed.contains(&placed) {
            return None;
        }
        // A set that is begun and not whole has the next tip.
        let begun = self.sets.iter().filter(|&&set| set & placed != 0 && set & !placed != 0);
        let allowed = begun.fold(!placed, |allowed, set| allowed & set);
        let next: Vec<usize> = self.tips.iter().copied().filter(|tip| allowed >> tip & 1 == 1).collect();
        for tip in next {
            if let Some(mut order) = self.order_behind(placed | 1 << tip) {
                order.push(tip);
                return Some(order);
            }
        }
        self.failed.push(placed);
        None
    }
}
