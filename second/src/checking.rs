//! The check of a plan from other software, with its claimed number of pairs and its table.

use crate::board::{has, Answer, Board, Stage, MOST_TIPS};
use crate::refusal;
use crate::sharing::{pairs_in, stretches_from};

impl Board {
    /// Whether each line is on a tip of its own.
    fn is_own_plan(&self, plan: &[u8]) -> bool {
        self.lines().zip(plan).all(|(line, &tip)| usize::from(tip) < MOST_TIPS && has(line.set, tip.into()))
    }

    /// Whether the table shows that no plan has more pairs than are claimed; the lines are runs.
    pub fn table_shows(&self, claim: u32, table: &[u32]) -> bool {
        let m = self.rack;
        let entry_of = |first: usize, last: usize| table[first * m + last];
        if entry_of(0, m - 1) != claim {
            return false;
        }
        let named = self.named_tips();
        for first in 0..m {
            for (last, taken) in stretches_from(self, first) {
                for tip in first..=last {
                    if !has(named, tip) {
                        continue;
                    }
                    // An empty stretch beside the tip counts 0; 64 bits hold every sum.
                    let below = if tip > first { u64::from(entry_of(first, tip - 1)) } else { 0 };
                    let above = if tip < last { u64::from(entry_of(tip + 1, last)) } else { 0 };
                    let on_tip = taken[tip] * taken[tip].saturating_sub(1) / 2;
                    if u64::from(entry_of(first, last)) < u64::from(on_tip) + below + above {
                        return false;
                    }
                }
            }
        }
        true
    }

    /// Accepts a plan exactly when each line is on a tip of its own, the claim is its number of pairs, and the table shows
    /// that no plan has more; plan and table are only read.
    pub fn check(self, plan: &[u8], claim: u32, table: &[u32]) -> Answer<()> {
        let (number, place) = self.refusal_in(Stage::Closed);
        if number != refusal::ACCEPTED {
            return Answer::refused_at(self, number, place);
        }
        if plan.len() < self.count {
            return Answer::refused(self, refusal::SHORT_PLAN);
        }
        if table.len() < self.rack * self.rack {
            return Answer::refused(self, refusal::SHORT_TABLE);
        }
        if let Some(line) = self.first_no_run() {
            return Answer::refused_at(self, refusal::NO_RUN, line);
        }
        if !self.is_own_plan(plan) {
            return Answer::refused(self, refusal::FOREIGN_TIP);
        }
        if pairs_in(&self.placed(plan)) != claim {
            return Answer::refused(self, refusal::WRONG_CLAIM);
        }
        if !self.table_shows(claim, table) {
            return Answer::refused(self, refusal::WRONG_TABLE);
        }
        Answer::accepted(self, ())
    }
}
