//! The lines about small boards: how many there are, and how many calls on them are made and refused.

use std::ops::RangeInclusive;

use second::{refusal, Board, Line};

use crate::boards::placed_board;
use crate::every_plan::{all_sets, check, counted, every_board};
use crate::junk;

/// At how many prices exact sharing is tried on each board.
const PRICES: usize = 4;

/// Of some boards, the calls of keep and those that it and best sharing refuse, the plans along the list, one without a
/// mounted tip and one from each tip, and exact sharing at each price; every other call is made once on each board.
#[derive(Clone, Copy, Default)]
struct Tally {
    boards: usize,
    keeps: usize,
    keeps_refused: usize,
    bests_refused: usize,
    alongs: usize,
    exacts: usize,
}

impl Tally {
    fn and(self, other: Tally) -> Tally {
        Tally {
            boards: self.boards + other.boards,
            keeps: self.keeps + other.keeps,
            keeps_refused: self.keeps_refused + other.keeps_refused,
            bests_refused: self.bests_refused + other.bests_refused,
            alongs: self.alongs + other.alongs,
            exacts: self.exacts + other.exacts,
        }
    }

    /// Every board is held to every plan before it is counted, so that nothing is wrong.
    fn show(self, words: &str) -> String {
        let Tally { boards, keeps, keeps_refused, bests_refused, alongs, exacts } = self;
        format!(
            "{words} boards {boards} wrong 0; common tip {boards} wrong 0; \
             keep {keeps} refused 26: {keeps_refused} wrong 0; quick {boards} wrong 0; \
             best {boards} refused 25: {bests_refused} wrong 0; along {alongs} wrong 0; exact {exacts} wrong 0"
        )
    }
}

fn is_best_refused(board: &Board) -> bool {
    board.clone().best(None, &mut [junk::JUNK; junk::PLAN], &mut [junk::place(junk::JUNK); junk::TABLE]).number
        == refusal::NO_RUN
}

/// The calls on one board: keep for each k from 0 to the number of placements and one more.
fn tally(board: &Board) -> Tally {
    assert_eq!(placed_board(board.rack, &board.lines().collect::<Vec<Line>>()), *board);
    check(board);
    let bounds = 0..board.placements().len() as u16 + 2;
    let is_keep_refused = |k: &u16| board.clone().keep_within(*k).number == refusal::NO_PLAN;
    Tally {
        boards: 1,
        keeps: bounds.len(),
        keeps_refused: bounds.filter(is_keep_refused).count(),
        bests_refused: usize::from(is_best_refused(board)),
        alongs: board.rack + 1,
        exacts: PRICES,
    }
}

/// Every board of so many lines, each of one of the quantities.
fn tally_all(rack: usize, lines: usize, quantities: &[u8]) -> Tally {
    let mut sum = Tally::default();
    let choices = counted(&all_sets(rack), quantities);
    every_board(rack, &choices, lines, &mut |board| sum = sum.and(tally(board)));
    sum
}

/// The boards of each rack with each number of lines, and of all together.
fn tallies(words: &str, racks: &[(usize, RangeInclusive<usize>)], quantities: &[u8]) -> Vec<String> {
    let mut printed = Vec::new();
    let mut all = Tally::default();
    for (rack, numbers_of_lines) in racks {
        for lines in numbers_of_lines.clone() {
            let tally = tally_all(*rack, lines, quantities);
            let plans = rack.pow(lines as u32);
            printed.push(tally.show(&format!("rack {rack} lines {lines} plans {plans}{words}")));
            all = all.and(tally);
        }
    }
    printed.push(all.show(&format!("all{words}")));
    printed
}

pub fn lines() -> Vec<String> {
    let by_lines = tallies("", &[(1, 0..=3), (2, 0..=4), (3, 0..=4), (4, 1..=3)], &[1]);
    let by_placements = tallies(" quantities 1 to 3", &[(1, 1..=2), (2, 1..=4), (3, 1..=3), (4, 1..=2)], &[1, 2, 3]);
    [by_lines, by_placements].concat()
}
