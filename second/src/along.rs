//! The fewest tip changes where the lines are placed in the order of the list.
//!
//! The number of changes is worked out line by line and tip by tip; the plan is laid stretch by stretch, each on the tip
//! that serves the most lines from there on.

use crate::board::{has, Answer, Board, MOST_TIPS};
use crate::refusal;
use crate::sharing::pairs_in;

/// The answer of planning along the list: the tip changes, the one before the first line among them, and the pairs of
/// placements.
#[derive(Clone, Copy, PartialEq, Eq, Debug, Default)]
pub struct Along {
    pub changes: u32,
    pub pairs: u32,
}

impl Board {
    /// The fewest changes that any plan has.
    fn fewest_changes(&self, mounted: Option<usize>) -> u32 {
        // For each tip the fewest changes with which it is on the head; nothing where it cannot be.
        let mut with_tip = [None; MOST_TIPS];
        for tip in 0..self.rack {
            if mounted.is_none_or(|mounted| mounted == tip) {
                with_tip[tip] = Some(0);
            }
        }
        for line in self.lines() {
            let fewest: u32 = with_tip.iter().flatten().copied().min().expect("a line has a tip");
            for tip in 0..MOST_TIPS {
                let stays = with_tip[tip].unwrap_or(fewest + 1);
                with_tip[tip] = has(line.set, tip).then_some(stays.min(fewest + 1));
            }
        }
        with_tip.iter().flatten().copied().min().expect("a rack has a tip")
    }

    /// For each line and tip how many lines have the tip, one after the other, from this one on; and a row behind them.
    fn lines_served(&self) -> Vec<[usize; MOST_TIPS]> {
        let mut served = vec![[0; MOST_TIPS]; self.count + 1];
        for line in (0..self.count).rev() {
            for tip in 0..self.rack {
                if has(self.sets[line], tip) {
                    served[line][tip] = served[line + 1][tip] + 1;
                }
            }
        }
        served
    }

    /// The tips of all lines: the mounted tip as long as it serves, then each time the lowest of those that serve longest.
    fn tips_along(&self, mounted: Option<usize>) -> Vec<u8> {
        let served = self.lines_served();
        let mut tips = Vec::new();
        if let Some(tip) = mounted {
            tips.resize(served[0][tip], tip as u8);
        }
        while tips.len() < self.count {
            let from_here = served[tips.len()];
            let longest = *from_here.iter().max().expect("a tip");
            let tip = from_here.iter().position(|&lines| lines == longest).expect("a tip");
            tips.resize(tips.len() + longest, tip as u8);
        }
        tips
    }

    /// Plans the lines in the order of the list, with the fewest tip changes.
    pub fn along(self, mounted: Option<usize>, plan: &mut [u8]) -> Answer<Along> {
        let (number, place) = self.refusal_of_plan(mounted, plan);
        if number != refusal::ACCEPTED {
            return Answer::refused_at(self, number, place);
        }
        let tips = self.tips_along(mounted);
        plan[..tips.len()].copy_from_slice(&tips);
        let along = Along { changes: self.fewest_changes(mounted), pairs: pairs_in(&self.placed(&tips)) };
        Answer::accepted(self, along)
    }
}
