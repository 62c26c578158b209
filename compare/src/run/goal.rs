//! Goals of pairs: at a best plan's pairs and around them, in outputs of every length.

use second::interface::{ANSWER_PLACES, NO_TIP};
use second::{pairs_in, Board};

use super::Run;
use crate::boards::is_unbroken;
use crate::check::{Call, Difference, Outcome};
use crate::files::{board_in, file_of};
use crate::refusal;
use crate::tally::Event;

/// The second implementation solves a board for each tip of each line: those that take it longer are left out.
const MOST_STEPS: u64 = 600_000;

/// Whether the second implementation strikes from this board in a short time.
fn is_quick(board: &Board) -> bool {
    let mut lines: Vec<(u64, u8)> = board.lines().map(|line| (line.set, line.quantity)).collect();
    lines.sort_unstable();
    lines.dedup();
    let tips: u64 = lines.iter().map(|(set, _)| u64::from(set.count_ones())).sum();
    let named = u64::from(board.named_tips().count_ones());
    let of_one = named * named * named / 6 + 16 * named + 8 * board.count as u64;
    tips * of_one <= MOST_STEPS
}

impl Run {
    /// Some goals of a good file, given its best sharing in buffers that do.
    pub(super) fn goals(&mut self, board: &Board, file: &[u8], best: &Outcome) -> Result<(), Difference> {
        let pairs = best.answer[1] as u32;
        let written = file_of(board).len();
        let any = self.random.below(pairs as usize + 1) as u32;
        if best.returned == refusal::NO_RUN || is_quick(board) {
            let kept = self.case(file, Call::Goal { goal: pairs, out: written, answer: ANSWER_PLACES })?;
            self.count_goal(board, best, pairs, &kept);
            // From 80 to 100 % of the best pairs the most tips take a chain of intervals to settle.
            let near = pairs - any / 5;
            let goal = self.random.one_of(&[0, 1, any, any, near, pairs.saturating_sub(1), pairs / 2]);
            let (out, answer) = (self.length_around(written), self.answer_length());
            let kept = self.case(file, Call::Goal { goal, out, answer })?;
            self.count_goal(board, best, goal, &kept);
        }
        // More than any plan has, in fewer bits too.
        let goal = self.random.one_of(&[pairs + 1, pairs + 1, pairs | 1 << 24, pairs | 1 << 31, u32::MAX]);
        let (out, answer) = (self.length_around(written), self.answer_length());
        let refused = self.case(file, Call::Goal { goal, out, answer })?;
        self.count_events(&[
            (refused.returned == refusal::GOAL_MISSED && goal == pairs + 1, Event::GoalMissedByOne),
            (refused.returned == refusal::GOAL_MISSED && out < written, Event::GoalMissedAndShortOutput),
            (refused.returned == refusal::NO_RUN, Event::GoalMissedAndNoRun),
        ]);
        Ok(())
    }

    /// Answers and outputs around the needed lengths, with goals that are met and that are not.
    pub(super) fn each_goal(&mut self, board: &Board, file: &[u8]) -> Result<(), Difference> {
        if !is_quick(board) {
            return Ok(());
        }
        let (plan, table, answer) = (board.count, board.rack * board.rack, ANSWER_PLACES);
        let best = self.case(file, Call::Best { mounted: NO_TIP, plan, table, answer })?;
        let written = file_of(board).len();
        let goal = if best.returned == refusal::ACCEPTED { best.answer[1] as u32 } else { 0 };
        for answer in [0, 3, 4, 5] {
            self.case(file, Call::Goal { goal, out: written, answer })?;
        }
        for out in [0, 8, written - 1, written, written + 1] {
            for goal in [goal, goal + 1] {
                self.case(file, Call::Goal { goal, out, answer: ANSWER_PLACES })?;
            }
        }
        for goal in [0, 1, goal / 2, goal * 7 / 8, goal.saturating_sub(1), goal | 1 << 16, goal | 1 << 31, u32::MAX] {
            let kept = self.case(file, Call::Goal { goal, out: written + 9, answer: ANSWER_PLACES })?;
            self.count_goal(board, &best, goal, &kept);
        }
        Ok(())
    }

    /// What a goal left of a board of runs, beside its best plan.
    fn count_goal(&mut self, board: &Board, best: &Outcome, goal: u32, kept: &Outcome) {
        if kept.returned != 0 || kept.answer.len() < ANSWER_PLACES {
            return;
        }
        let after = board_in(&kept.bytes[..kept.answer[1] as usize]).expect("a good file");
        let pairs = best.answer[1] as u32;
        let same = after == *board;
        let struck = |line: usize| after.sets[line] != board.sets[line];
        let gap = || after.clone().best(None, &mut [0; 512], &mut [0; 4096]).number == second::refusal::NO_RUN;
        let several = || after.lines().any(|line| line.set.count_ones() > 1);
        // A kept tip to which the line cannot move alone.
        let with_others = || {
            let moved = |line: usize, tip: u8| {
                let mut plan = best.bytes.clone();
                plan[line] = tip;
                pairs_in(&board.placed(&plan))
            };
            let tips_of = |line: usize| (0..64).filter(move |tip| after.sets[line] >> tip & 1 == 1);
            (0..board.count).any(|line| tips_of(line).any(|tip| moved(line, tip) < goal))
        };
        let equal_sets = |line: usize| (0..line).filter(move |&other| board.sets[other] == board.sets[line]);
        let by_quantity =
            || (0..board.count).any(|line| equal_sets(line).any(|other| after.sets[other] != after.sets[line]));
        let is_small = board.count <= 16;
        self.count_events(&[
            (goal == pairs && !same, Event::GoalStrikes),
            (goal > 0 && same, Event::GoalStrikesNone),
            (goal == pairs && !same && several(), Event::GoalLeavesSeveral),
            (!same && is_small && gap(), Event::GoalLeavesAGap),
            (is_small && with_others(), Event::GoalByOtherLines),
            (is_small && by_quantity(), Event::GoalByQuantity),
            ((0..board.count).any(|line| struck(line) && !is_unbroken(board.sets[line])), Event::GoalWithAbsentTip),
        ]);
    }
}
