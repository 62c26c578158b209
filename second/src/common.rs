//! The common tip, and keeping the tips that some plan within k uses.

use crate::board::{has, Answer, Board, Stage, MOST_TIPS};
use crate::refusal;

/// The answer of the common-tip call.
#[derive(Clone, Copy, PartialEq, Eq, Debug, Default)]
pub struct CommonTip {
    /// The largest number of placements that one tip can take.
    pub top: usize,
    /// The least number of placements off the common tip.
    pub off: usize,
    /// The tips that can take that largest number of placements.
    pub tips: u64,
}

/// For each tip the number of placements whose set has it.
fn occurrences(placements: &[u64]) -> [usize; MOST_TIPS] {
    let mut occurrences = [0; MOST_TIPS];
    for tip in 0..MOST_TIPS {
        for &set in placements {
            occurrences[tip] += usize::from(has(set, tip));
        }
    }
    occurrences
}

/// Whether some plan with at least this many placements on one tip puts the line on the given tip.
fn is_supported(board: &Board, occurrences: &[usize; MOST_TIPS], needed: usize, line: usize, tip: usize) -> bool {
    let set = board.sets[line];
    for common in 0..board.rack {
        // The best plan for this common tip puts every line on it that can be there and is not bound to the other tip.
        let mut on = occurrences[common];
        if has(set, common) && common != tip {
            on -= usize::from(board.quantities[line]);
        }
        if on >= needed {
            return true;
        }
    }
    false
}

impl Board {
    /// The largest occurrence, the least number of placements off the common tip, and the tips that attain it.
    pub fn common_tip(self) -> Answer<CommonTip> {
        let (number, place) = self.refusal_in(Stage::Closed);
        if number != refusal::ACCEPTED {
            return Answer::refused_at(self, number, place);
        }
        let placements = self.placements();
        let occurrences = occurrences(&placements);
        let mut top = 0;
        for tip in 0..self.rack {
            if occurrences[tip] > top {
                top = occurrences[tip];
            }
        }
        let mut tips = 0;
        for tip in 0..self.rack {
            let in_some_line = occurrences[tip] > 0;
            if in_some_line && occurrences[tip] == top {
                tips |= 1 << tip;
            }
        }
        let off = placements.len() - top;
        Answer::accepted(self, CommonTip { top, off, tips })
    }

    /// Keeps, in each line, the tips that it has in some plan within k; the answer is the margin.
    pub fn keep_within(self, k: u16) -> Answer<i64> {
        let (number, place) = self.refusal_in(Stage::Closed);
        if number != refusal::ACCEPTED {
            return Answer::refused_at(self, number, place);
        }
        let placements = self.placements();
        let occurrences = occurrences(&placements);
        let top = *occurrences.iter().max().unwrap();
        let margin = top as i64 - placements.len() as i64 + i64::from(k);
        if margin < 0 {
            return Answer { board: self, number: refusal::NO_PLAN, place: 0, value: margin };
        }
        let needed = placements.len().saturating_sub(k.into());
        let mut kept = self.clone();
        for line in 0..self.count {
            for tip in 0..self.rack {
                if has(self.sets[line], tip) && !is_supported(&self, &occurrences, needed, line, tip) {
                    kept.sets[line] &= !(1 << tip);
                }
            }
        }
        Answer::accepted(kept, margin)
    }
}
