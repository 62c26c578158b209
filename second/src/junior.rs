//! The Junior, which carries two tips at once: every choice of one or two tips is tried.

use crate::board::{has, Answer, Board, Stage};
use crate::refusal;
use crate::sharing::pairs_in;

/// The largest rack that the Junior's console plans for.
pub const JUNIOR_TIPS: usize = 8;
/// The most lines that it plans.
pub const JUNIOR_LINES: usize = 64;

/// The answer of planning for the Junior: pairs of placements, and the two tips, which are one where one serves all.
#[derive(Clone, Copy, PartialEq, Eq, Debug, Default)]
pub struct Junior {
    pub pairs: u32,
    pub u: usize,
    pub v: usize,
}

impl Board {
    /// The plan in which each line that has the first tip is on it, and any other line on the second.
    fn first_then(&self, first: usize, second: usize) -> Vec<u8> {
        self.lines().map(|line| if has(line.set, first) { first as u8 } else { second as u8 }).collect()
    }

    /// The plan with both tips, where each line has one of them and both get a line. Lines that have both are on the side
    /// that gives more pairs, on the lower tip where that is equal.
    fn plan_with(&self, u: usize, v: usize) -> Option<(u32, Vec<u8>)> {
        if !self.lines().all(|line| has(line.set, u) || has(line.set, v)) {
            return None;
        }
        let on_u = self.first_then(u, v);
        let on_v = self.first_then(v, u);
        let pairs_on_u = pairs_in(&self.placed(&on_u));
        let pairs_on_v = pairs_in(&self.placed(&on_v));
        let (pairs, plan) = if pairs_on_v > pairs_on_u { (pairs_on_v, on_v) } else { (pairs_on_u, on_u) };
        let uses_both = [u, v].iter().all(|&tip| plan.iter().any(|&used| usize::from(used) == tip));
        uses_both.then_some((pairs, plan))
    }

    /// Plans with one tip or two: the most pairs, then the lowest first tip, then the lowest second.
    pub fn junior(self, plan: &mut [u8]) -> Answer<Junior> {
        let (number, place) = self.refusal_in(Stage::Closed);
        if number != refusal::ACCEPTED {
            return Answer::refused_at(self, number, place);
        }
        if self.count > JUNIOR_LINES {
            return Answer::refused(self, refusal::TOO_MANY_LINES);
        }
        if self.rack > JUNIOR_TIPS {
            return Answer::refused(self, refusal::RACK_SIZE);
        }
        if plan.len() < self.count {
            return Answer::refused(self, refusal::SHORT_PLAN);
        }
        if self.count == 0 {
            return Answer::accepted(self, Junior::default());
        }
        let mut chosen: Option<(Junior, Vec<u8>)> = None;
        for u in 0..self.rack {
            for v in u..self.rack {
                if let Some((pairs, tips)) = self.plan_with(u, v) {
                    if chosen.as_ref().is_none_or(|(best, _)| pairs > best.pairs) {
                        chosen = Some((Junior { pairs, u, v }, tips));
                    }
                }
            }
        }
        match chosen {
            None => Answer::refused(self, refusal::NO_TWO_TIPS),
            Some((junior, tips)) => {
                plan[..self.count].copy_from_slice(&tips);
                Answer::accepted(self, junior)
            }
        }
    }
}
