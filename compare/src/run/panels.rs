//! Two boards on one panel: fixed pairs of boards, and seeded ones.

use job_file::{Job, Version};
use second::interface::ANSWER_PLACES;
use second::{Board, Line};

use super::Run;
use crate::boards::{seeded_board, seeded_file, Size};
use crate::check::{Call, Difference, Given};
use crate::damage::{damage, damaged, KINDS};
use crate::files::{board_in, file_in, file_of};
use crate::refusal;
use crate::tally::Event;

/// So many of the fixed pairs are compared in each version that their files can have.
const IN_EACH_VERSION: usize = 3;

/// The closed board of so many lines with one set and quantity.
fn of_equal_lines(rack: usize, set: u64, quantity: u8, count: usize) -> Board {
    Board::of_lines(rack, &vec![Line { set, quantity }; count])
}

/// Pairs of boards that are always compared: the ends of each range first on one side, then on the other.
fn fixed_pairs() -> Vec<[Board; 2]> {
    let lines = |rack: usize, lines: &[(u64, u8)]| {
        let lines: Vec<Line> = lines.iter().map(|&(set, quantity)| Line { set, quantity }).collect();
        Board::of_lines(rack, &lines)
    };
    let none = lines(3, &[]);
    let small = [lines(3, &[(0b001, 1), (0b011, 2)]), lines(3, &[(0b110, 1), (0b100, 1)])];
    let eight = of_equal_lines(3, 0b001, 255, 8);
    let full = of_equal_lines(1, 1, 4, 512);
    let half = of_equal_lines(64, 1 << 63, 1, 256);
    vec![
        small.clone(),
        [small[0].clone(), lines(3, &[(0b011, 1), (0b100, 1)])],
        [lines(3, &[(0b001, 1), (0b110, 1)]), lines(3, &[(0b010, 1), (0b100, 1), (0b011, 1), (0b101, 1)])],
        // Line 0 is on tip 0 alone, and would be on tip 1 beside the others.
        [lines(3, &[(0b011, 1)]), lines(3, &[(0b010, 2), (0b110, 1)])],
        // Other racks, which plan alone.
        [small[0].clone(), lines(5, &[(0b10100, 1), (0b10000, 1)])],
        [lines(4, &[(0b0001, 1)]), lines(3, &[(0b001, 1)])],
        [none.clone(), lines(64, &[])],
        // Without lines.
        [none.clone(), small[1].clone()],
        [small[1].clone(), none.clone()],
        [none.clone(), none.clone()],
        // As many placements as there may be, and one more.
        [eight.clone(), lines(3, &[(0b110, 8)])],
        [eight.clone(), lines(3, &[(0b110, 9)])],
        [lines(3, &[(0b110, 9)]), eight.clone()],
        [eight.clone(), eight],
        // As many lines as there may be, and one more, with as many placements or too many.
        [half.clone(), half.clone()],
        [half.clone(), of_equal_lines(64, 1, 1, 257)],
        [of_equal_lines(64, 1, 4, 257), half],
        [full.clone(), lines(1, &[])],
        [full.clone(), lines(1, &[(1, 1)])],
        [lines(1, &[(1, 1)]), full.clone()],
        // And in another rack.
        [full, lines(2, &[(0b01, 1)])],
    ]
}

impl Run {
    /// Each fixed pair with buffers of lengths around the needed ones; the first of them in each version that a file can
    /// have, and the very first damaged on one side, on the other, and on both.
    pub(super) fn fixed_panels(&mut self) -> Result<(), Difference> {
        for (number, [first, second]) in fixed_pairs().into_iter().enumerate() {
            let [one, two] = [&first, &second].map(file_of);
            let [one_in_second, two_in_second] = [&first, &second].map(|board| file_in(board, Version::Two));
            self.each_panel(&one, &two)?;
            if number < IN_EACH_VERSION {
                self.each_panel(&one_in_second, &two_in_second)?;
                self.each_panel(&one, &two_in_second)?;
                self.each_panel(&one_in_second, &two)?;
            }
            if number == 0 {
                let (one, two) = (one_in_second, two_in_second);
                self.damaged_panels(&one, &two)?;
                // A file with too many placements on either side.
                let passing = file_in(&of_equal_lines(3, 1, 255, 9), Version::Two);
                for (one, two) in [(&passing, &two), (&one, &passing)] {
                    self.panel(one, two, Call::Merge { out: 100, answer: ANSWER_PLACES })?;
                    self.panel(one, two, Call::Alone { plan: 20, answer: ANSWER_PLACES })?;
                }
            }
        }
        Ok(())
    }

    fn each_panel(&mut self, first: &[u8], second: &[u8]) -> Result<(), Difference> {
        let [out, plan] = needed(first, second);
        if plan > 100 {
            for less in [0, 1] {
                self.panel(first, second, Call::Merge { out: out - less, answer: ANSWER_PLACES })?;
                self.panel(first, second, Call::Alone { plan: plan - less, answer: ANSWER_PLACES })?;
            }
            return Ok(());
        }
        for out in [out.saturating_sub(1), out, out + 1, out + 9, 0] {
            self.panel(first, second, Call::Merge { out, answer: ANSWER_PLACES })?;
        }
        let of_first = job_in(first).lines.len();
        for plan in [plan.saturating_sub(1), plan, plan + 1, plan + 9, of_first, 0] {
            self.panel(first, second, Call::Alone { plan, answer: ANSWER_PLACES })?;
        }
        for answer in (0..=5).filter(|&answer| answer != ANSWER_PLACES) {
            self.panel(first, second, Call::Merge { out, answer })?;
            self.panel(first, second, Call::Alone { plan, answer })?;
        }
        Ok(())
    }

    /// Every kind of damage on one side and on the other, and a kind on each side.
    fn damaged_panels(&mut self, first: &[u8], second: &[u8]) -> Result<(), Difference> {
        for kind in 0..KINDS {
            let (mut one, mut two) = (first.to_vec(), second.to_vec());
            damage(&mut self.random, &mut one, kind);
            damage(&mut self.random, &mut two, kind);
            let mut other = second.to_vec();
            let other_kind = self.random.below(KINDS);
            damage(&mut self.random, &mut other, other_kind);
            for (one, two) in [(&one[..], second), (first, &two), (&one, &other)] {
                self.both_calls(one, two)?;
            }
        }
        Ok(())
    }

    /// The board with another one: mostly of the same rack, sometimes the same one, without lines, or damaged.
    pub(super) fn seeded_panel(&mut self, board: &Board, file: &[u8]) -> Result<(), Difference> {
        let size = self.random.one_of(&[Size::Small, Size::Small, Size::Middle, Size::Middle, Size::Long]);
        let mut other = match self.random.below(8) {
            0 => board.clone(),
            1 => Board::of_lines(board.rack, &[]),
            _ => seeded_board(&mut self.random, size),
        };
        if !self.random.once_in(4) {
            other = in_rack(&other, board.rack);
        }
        let second = seeded_file(&mut self.random, &other);
        let (mut one, mut two) = (file.to_vec(), second);
        match self.random.below(6) {
            0 => one = damaged(&mut self.random, &one),
            1 => two = damaged(&mut self.random, &two),
            2 if self.random.once_in(4) => {
                one = damaged(&mut self.random, &one);
                two = damaged(&mut self.random, &two);
            }
            _ => {}
        }
        if self.random.once_in(2) {
            (one, two) = (two, one);
        }
        self.both_calls(&one, &two)
    }

    /// Both calls, mostly with the needed lengths.
    fn both_calls(&mut self, first: &[u8], second: &[u8]) -> Result<(), Difference> {
        let [out, plan] = needed(first, second);
        let (out, answer) = (self.length_around(out), self.answer_length());
        self.panel(first, second, Call::Merge { out, answer })?;
        let (plan, answer) = (self.length_around(plan), self.answer_length());
        self.panel(first, second, Call::Alone { plan, answer })
    }

    fn panel(&mut self, first: &[u8], second: &[u8], call: Call) -> Result<(), Difference> {
        self.begin_file(first);
        let outcome = self.case_with(first, call, Given { other: second, ..Given::default() })?;
        self.count_panel(first, second, call, outcome.returned);
        Ok(())
    }

    fn count_panel(&mut self, first: &[u8], second: &[u8], call: Call, number: u64) {
        if number == refusal::SHORT_ANSWER {
            return;
        }
        let (one, two) = match (board_in(first), board_in(second)) {
            (Ok(one), Ok(two)) => (one, two),
            (one, two) => {
                self.count_events(&[
                    (two.is_ok(), Event::FirstBoardBad),
                    (one.is_ok(), Event::SecondBoardBad),
                    (matches!((one, two), (Err(one), Err(two)) if one.number != two.number), Event::BothBoardsBad),
                ]);
                return;
            }
        };
        let (lines, placements) = (one.count + two.count, one.placements().len() + two.placements().len());
        let (accepted, same_rack) = (number == refusal::ACCEPTED, one.rack == two.rack);
        let versions = [first[4], second[4]];
        let is_merge = matches!(call, Call::Merge { .. });
        let fits_first = matches!(call, Call::Alone { plan, .. } if plan >= one.count);
        self.count_events(&[
            (accepted && one.count == 0 && two.count > 0, Event::EmptyFirstBoard),
            (accepted && two.count == 0 && one.count > 0, Event::EmptySecondBoard),
            (accepted && is_merge && lines == 512, Event::PanelOf512Lines),
            (accepted && is_merge && placements == 2048, Event::PanelOf2048Placements),
            (accepted && is_merge && versions[0] != versions[1] && lines != placements, Event::PanelOfBothVersions),
            (accepted && is_merge && versions != [1, 1] && lines == placements, Event::PanelAsVersion1),
            (is_merge && !same_rack && (lines > 512 || placements > 2048), Event::RacksDifferAndLines),
            (is_merge && same_rack && lines > 512 && placements > 2048, Event::LinesAndPlacements),
            (accepted && !is_merge && !same_rack, Event::AloneInTwoRacks),
            (number == refusal::SHORT_PLAN && fits_first, Event::FirstPlanAloneFits),
        ]);
    }
}

/// What a job file holds; no lines where it is refused.
fn job_in(file: &[u8]) -> Job {
    Job::read(file).unwrap_or(Job { rack: 1, lines: Vec::new() })
}

/// The lengths that merging and planning alone need, of good files.
fn needed(first: &[u8], second: &[u8]) -> [usize; 2] {
    let (one, two) = (job_in(first), job_in(second));
    let lines = one.lines.len() + two.lines.len();
    let version = if one.is_single() && two.is_single() { Version::One } else { Version::Two };
    [version.length_of(lines), lines]
}

/// The board with the tips of a rack of this size alone; a line that has none of them gets the first.
fn in_rack(board: &Board, rack: usize) -> Board {
    let within = u64::MAX >> (64 - rack);
    let within = |line: Line| Line { set: Some(line.set & within).filter(|&set| set != 0).unwrap_or(1), ..line };
    let lines: Vec<Line> = board.lines().map(within).collect();
    Board::of_lines(rack, &lines)
}

#[cfg(test)]
mod tests {
    use super::*;

    #[test]
    fn fixed_pairs_are_sound() {
        assert!(fixed_pairs().iter().flatten().all(Board::is_sound));
    }

    #[test]
    fn boards_fit_another_rack() {
        let board = Board::of_sets(8, &[0b1000_0000, 0b0000_0111]);
        assert_eq!(in_rack(&board, 2), Board::of_sets(2, &[1, 3]));
        assert_eq!(in_rack(&board, 64), Board::of_sets(64, &[0b1000_0000, 0b0000_0111]));
        assert_eq!(in_rack(&board, 8), board);
    }
}
