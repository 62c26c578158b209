//! Striking the tips that no plan with a goal of pairs uses, for lines that are runs.

use std::collections::BTreeMap;

use crate::board::{has, Answer, Board, Line, Stage, MOST_TIPS};
use crate::refusal;

/// A plan with the most pairs: the tip of each line.
struct MostPairs {
    pairs: u32,
    plan: Vec<usize>,
}

fn pairs_among(placements: u32) -> u32 {
    placements * placements.saturating_sub(1) / 2
}

/// The most pairs of a stretch of the named tips, from its first to before its end, and the tip that reaches them.
#[derive(Clone, Copy, Default)]
struct Most {
    pairs: u32,
    tip: usize,
}

/// A plan of runs with the most pairs. Stretches are counted among the named tips, whose numbers are told.
fn plan_with_most_pairs(lines: &[Line]) -> MostPairs {
    let named: Vec<usize> = (0..MOST_TIPS).filter(|&tip| lines.iter().any(|line| has(line.set, tip))).collect();
    let number = named.len();
    let ends_of = |line: &Line| {
        let first = named.iter().position(|&tip| has(line.set, tip)).expect("a line has a tip");
        let last = named.iter().rposition(|&tip| has(line.set, tip)).expect("a line has a tip");
        (first, last + 1)
    };
    let ends: Vec<(usize, usize)> = lines.iter().map(ends_of).collect();
    // The placements of the lines that lie within each stretch.
    let mut within = vec![vec![0; number + 1]; number + 1];
    for (line, &(first, end)) in lines.iter().zip(&ends) {
        within[first][end] += u32::from(line.quantity);
    }
    for first in (0..number).rev() {
        for end in first + 1..=number {
            within[first][end] += within[first + 1][end] + within[first][end - 1] - within[first + 1][end - 1];
        }
    }
    let mut most = vec![vec![Most::default(); number + 1]; number + 1];
    for first in (0..number).rev() {
        for end in first + 1..=number {
            let choosing = |tip: usize| {
                // Of the lines within, those that lie wholly beside the tip lack it.
                let taken = within[first][end] - within[first][tip] - within[tip + 1][end];
                let pairs = pairs_among(taken) + most[first][tip].pairs + most[tip + 1][end].pairs;
                Most { pairs, tip }
            };
            most[first][end] = (first..end).map(choosing).max_by_key(|choice| choice.pairs).expect("a tip");
        }
    }
    let mut plan = vec![0; lines.len()];
    let mut stretches = vec![(0, number)];
    while let Some((first, end)) = stretches.pop().filter(|(first, end)| first < end) {
        let tip = most[first][end].tip;
        for (line, &(from, to)) in ends.iter().enumerate() {
            if first <= from && from <= tip && tip < to && to <= end {
                plan[line] = named[tip];
            }
        }
        stretches.extend([(first, tip), (tip + 1, end)].iter().filter(|(first, end)| first < end));
    }
    MostPairs { pairs: most[0][number].pairs, plan }
}

impl Board {
    /// Keeps, in each line, the tips that it has in some plan with at least as many pairs as the goal says.
    pub fn goal(self, goal: u32) -> Answer<()> {
        let (number, place) = self.refusal_in(Stage::Closed);
        if number != refusal::ACCEPTED {
            return Answer::refused_at(self, number, place);
        }
        if let Some(line) = self.first_no_run() {
            return Answer::refused_at(self, refusal::NO_RUN, line);
        }
        let lines: Vec<Line> = self.lines().collect();
        let best = plan_with_most_pairs(&lines);
        if best.pairs < goal {
            return Answer::refused(self, refusal::GOAL_MISSED);
        }
        // Lines with equal sets and quantities can change places in a plan, so that they keep the same tips.
        let mut used: BTreeMap<(u64, u8), u64> = BTreeMap::new();
        let use_plan = |used: &mut BTreeMap<(u64, u8), u64>, plan: &[usize]| {
            for (line, &tip) in lines.iter().zip(plan) {
                *used.entry((line.set, line.quantity)).or_default() |= 1 << tip;
            }
        };
        use_plan(&mut used, &best.plan);
        for place in 0..lines.len() {
            let Line { set, quantity } = lines[place];
            for tip in (0..self.rack).filter(|&tip| has(set, tip)) {
                if has(used[&(set, quantity)], tip) {
                    continue;
                }
                // With this tip alone the line is a run too; other lines may use what the plan found has for them.
                let mut bound = lines.clone();
                bound[place].set = 1 << tip;
                let found = plan_with_most_pairs(&bound);
                if found.pairs >= goal {
                    use_plan(&mut used, &found.plan);
                }
            }
        }
        let mut kept = self.clone();
        for (place, line) in lines.iter().enumerate() {
            kept.sets[place] = used[&(line.set, line.quantity)];
        }
        Answer::accepted(kept, ())
    }
}
