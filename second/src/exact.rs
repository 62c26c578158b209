//! Exact sharing of any lines on up to 20 named tips, with a price for each tip that the plan uses.
//!
//! The placements within each set of named tips are added up line by line; a set's score is found by recursion over its
//! tips, and kept. The plan is a list of tips: each line is on the first of them that it allows.

use std::collections::BTreeMap;

use crate::board::{has, Answer, Board, MOST_TIPS};
use crate::refusal;
use crate::sharing::{chosen_of, pairs_in};

/// The most named tips that are shared exactly.
pub const EXACT_TIPS: usize = 20;
/// A higher price counts as this one, which is above the pairs of any plan.
const HIGHEST_PRICE: u32 = 2_096_129;

/// The answer of exact sharing: pairs of placements, and the different tips that the plan uses.
#[derive(Clone, Copy, PartialEq, Eq, Debug, Default)]
pub struct Exact {
    pub pairs: u32,
    pub tips: u32,
}

/// The scores of sets of named tips, bit i for the i-th of them.
struct Scores {
    price: u32,
    /// The placements of the lines within each set.
    within: Vec<u32>,
    found: Vec<Option<u32>>,
}

impl Scores {
    /// What it brings to take a tip out of the set: the pairs of the lines that go with it, or its price without any.
    fn gain(&self, set: usize, tip: usize) -> u32 {
        match self.within[set] - self.within[set & !(1 << tip)] {
            0 => self.price,
            placements => placements * (placements - 1) / 2,
        }
    }

    /// The score where this tip of the set is taken first.
    fn score_taking(&mut self, set: usize, tip: usize) -> u32 {
        self.gain(set, tip) + self.score(set & !(1 << tip))
    }

    fn score(&mut self, set: usize) -> u32 {
        if let Some(score) = self.found[set] {
            return score;
        }
        let score = tips_of(set).map(|tip| self.score_taking(set, tip)).max().unwrap_or(0);
        self.found[set] = Some(score);
        score
    }
}

fn tips_of(set: usize) -> impl Iterator<Item = usize> {
    (0..EXACT_TIPS).filter(move |&tip| set >> tip & 1 == 1)
}

impl Board {
    /// The named tips, the lowest first.
    fn tips_by_rank(&self) -> Vec<usize> {
        let named = self.named_tips();
        (0..MOST_TIPS).filter(|&tip| has(named, tip)).collect()
    }

    /// The placements of the lines within each set of these tips.
    fn placements_within(&self, tips: &[usize]) -> Vec<u32> {
        let mut of_set: BTreeMap<usize, u32> = BTreeMap::new();
        for line in self.lines() {
            let set = (0..tips.len()).filter(|&rank| has(line.set, tips[rank])).fold(0, |set, rank| set | 1 << rank);
            *of_set.entry(set).or_default() += u32::from(line.quantity);
        }
        let mut within = vec![0; 1 << tips.len()];
        for (set, placements) in of_set {
            // Each set with all of these tips, which has any of the others too.
            let others = (within.len() - 1) & !set;
            let mut more = others;
            loop {
                within[set | more] += placements;
                if more == 0 {
                    break;
                }
                more = (more - 1) & others;
            }
        }
        within
    }

    /// The plan with the most pairs, less the price of each tip that it uses; the table ends with the placements within each
    /// set of named tips, and with its score.
    pub fn exact(self, mounted: Option<usize>, price: u32, plan: &mut [u8], table: &mut [u32]) -> Answer<Exact> {
        let (number, place) = self.refusal_of_plan(mounted, plan);
        if number != refusal::ACCEPTED {
            return Answer::refused_at(self, number, place);
        }
        let tips = self.tips_by_rank();
        if tips.len() > EXACT_TIPS {
            return Answer::refused(self, refusal::TOO_MANY_NAMED);
        }
        let sets = 1 << tips.len();
        if table.len() < 2 * sets {
            return Answer::refused(self, refusal::SHORT_TABLE);
        }
        let within = self.placements_within(&tips);
        let mut scores = Scores { price: price.min(HIGHEST_PRICE), within, found: vec![None; sets] };
        // The tips in the order in which they are taken.
        let mut taken = Vec::new();
        let mut left = sets - 1;
        while left != 0 {
            let score = scores.score(left);
            let tied: Vec<usize> = tips_of(left).filter(|&rank| scores.score_taking(left, rank) == score).collect();
            let mounted = mounted.and_then(|mounted| tips.iter().position(|&tip| tip == mounted));
            let rank = chosen_of(&tied, mounted);
            taken.push(tips[rank]);
            left &= !(1 << rank);
        }
        for set in 0..sets {
            table[set] = scores.within[set];
            table[sets + set] = scores.score(set);
        }
        for line in 0..self.count {
            let tip = taken.iter().find(|&&tip| has(self.sets[line], tip)).expect("a named tip");
            plan[line] = *tip as u8;
        }
        let used = taken.iter().filter(|&&tip| plan[..self.count].contains(&(tip as u8))).count();
        let exact = Exact { pairs: pairs_in(&self.placed(plan)), tips: used as u32 };
        Answer::accepted(self, exact)
    }
}
