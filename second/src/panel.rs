//! Two boards on one panel: merged into one board, or each planned by itself.

use crate::board::{Board, Line, Stage, MOST_LINES, MOST_PLACEMENTS};
use crate::refusal;

/// What merging hands back: both boards as they came, and the panel.
#[derive(Clone, PartialEq, Eq, Debug)]
pub struct Merged {
    pub first: Board,
    pub second: Board,
    /// The board of both; of a refused merge the board of a refused read.
    pub panel: Board,
    pub number: u32,
    pub place: usize,
}

/// What planning each board alone hands back: both boards as they came, and the pairs of each plan.
#[derive(Clone, PartialEq, Eq, Debug)]
pub struct Alone {
    pub first: Board,
    pub second: Board,
    pub number: u32,
    pub place: usize,
    pub first_pairs: u32,
    pub second_pairs: u32,
}

/// The refusal of the first board that is not sound and closed, and its place; 0 where both are.
fn refusal_of_both(first: &Board, second: &Board) -> (u32, usize) {
    let of_first = first.refusal_in(Stage::Closed);
    if of_first.0 != refusal::ACCEPTED {
        return of_first;
    }
    second.refusal_in(Stage::Closed)
}

/// Why two sound boards make no panel; 0 where they make one.
fn refusal_of_panel(first: &Board, second: &Board) -> u32 {
    if first.rack != second.rack {
        return refusal::RACKS_DIFFER;
    }
    if first.count + second.count > MOST_LINES {
        return refusal::TOO_MANY_LINES;
    }
    if first.placements().len() + second.placements().len() > MOST_PLACEMENTS {
        return refusal::TOO_MANY_PLACEMENTS;
    }
    refusal::ACCEPTED
}

impl Board {
    /// Merges two closed boards into one: the lines of the first, then those of the second.
    pub fn merge(self, other: Board) -> Merged {
        let (mut number, place) = refusal_of_both(&self, &other);
        if number == refusal::ACCEPTED {
            number = refusal_of_panel(&self, &other);
        }
        let panel = if number == refusal::ACCEPTED {
            let lines: Vec<Line> = self.lines().chain(other.lines()).collect();
            Board::of_lines(self.rack, &lines)
        } else {
            Board::without_lines(1)
        };
        Merged { first: self, second: other, panel, number, place }
    }

    /// Plans each of two closed boards by the quick rule, without a mounted tip: the plan of the second stands behind
    /// that of the first.
    pub fn alone(self, other: Board, plan: &mut [u8]) -> Alone {
        let (mut number, place) = refusal_of_both(&self, &other);
        if number == refusal::ACCEPTED && plan.len() < self.count + other.count {
            number = refusal::SHORT_PLAN;
        }
        if number != refusal::ACCEPTED {
            return Alone { first: self, second: other, number, place, first_pairs: 0, second_pairs: 0 };
        }
        let (of_first, of_second) = plan.split_at_mut(self.count);
        let first = self.quick(None, of_first);
        let second = other.quick(None, of_second);
        let (first_pairs, second_pairs) = (first.value, second.value);
        Alone { first: first.board, second: second.board, number, place, first_pairs, second_pairs }
    }
}
