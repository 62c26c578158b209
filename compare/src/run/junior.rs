//! Plans for the Junior, on boards that it takes and that it does not.

use second::interface::ANSWER_PLACES;
use second::{pairs_in, Board, JUNIOR_LINES, JUNIOR_TIPS};

use super::Run;
use crate::boards::{is_counted, single};
use crate::check::{Call, Difference, Outcome};
use crate::refusal;
use crate::tally::Event;

impl Run {
    /// A plan in buffers that do, and one in others, given the quick plan.
    pub(super) fn juniors(&mut self, board: &Board, file: &[u8], quick: &Outcome) -> Result<(), Difference> {
        let planned = self.case(file, Call::Junior { plan: board.count, answer: ANSWER_PLACES })?;
        self.count_junior(board, quick, &planned);
        let (plan, answer) = (self.length_around(board.count), self.answer_length());
        let call = Call::Junior { plan, answer };
        let refused = self.case(file, call)?.returned;
        let is_short = plan < board.count;
        self.count_events(&[
            (refused == refusal::TOO_MANY_LINES && board.rack > JUNIOR_TIPS, Event::JuniorManyLinesAndRack),
            (refused == refusal::RACK_SIZE && is_short, Event::JuniorRackAndShortPlan),
            (
                refused == refusal::SHORT_PLAN && planned.returned == refusal::NO_TWO_TIPS,
                Event::JuniorShortPlanAndNoTips,
            ),
        ]);
        Ok(())
    }

    /// Every length of the answer and of the plan, of a long file around the needed one.
    pub(super) fn each_junior(&mut self, board: &Board, file: &[u8]) -> Result<(), Difference> {
        for answer in [0, 1, 3, 4, 5] {
            self.case(file, Call::Junior { plan: board.count, answer })?;
        }
        let number = board.clone().junior(&mut [0; JUNIOR_LINES]).number;
        for plan in (0..=board.count + 1).filter(|plan| board.count <= 8 || *plan + 2 >= board.count) {
            let refused = self.case(file, Call::Junior { plan, answer: ANSWER_PLACES })?.returned;
            self.count_events(&[(
                refused == refusal::SHORT_PLAN && number == second::refusal::NO_TWO_TIPS,
                Event::JuniorShortPlanAndNoTips,
            )]);
        }
        Ok(())
    }

    /// What was planned, beside the other choices of tips.
    fn count_junior(&mut self, board: &Board, quick: &Outcome, planned: &Outcome) {
        if planned.returned != 0 || board.count == 0 {
            return;
        }
        let (u, v) = (planned.answer[2] as usize, planned.answer[3] as usize);
        let has = |line: usize, tip: usize| board.sets[line] >> tip & 1 == 1;
        let lines_with_both: Vec<usize> =
            (0..board.count).filter(|&line| u != v && has(line, u) && has(line, v)).collect();
        let pairs_with_both_on = |tip: usize| {
            let mut plan = planned.bytes.clone();
            lines_with_both.iter().for_each(|&line| plan[line] = tip as u8);
            pairs_in(&board.placed(&plan))
        };
        let (on_u, on_v) = (pairs_with_both_on(u), pairs_with_both_on(v));
        let any_both = !lines_with_both.is_empty();
        let serves = |u: usize, v: usize| (0..board.count).all(|line| has(line, u) || has(line, v));
        let lower =
            (0..u + 1).any(|first| (first + 1..board.rack).any(|last| (first, last) < (u, v) && serves(first, last)));
        let mirrored_pairs = || {
            // Seen from the other end another choice may be the lowest.
            let turned = |set: u64| set.reverse_bits() >> (64 - board.rack);
            let lines = board.lines().map(|line| second::Line { set: turned(line.set), ..line });
            let other = Board::of_lines(board.rack, &lines.collect::<Vec<_>>()).junior(&mut [0; JUNIOR_LINES]).value;
            (board.rack - 1 - other.v, board.rack - 1 - other.u)
        };
        let plan_of_single = || {
            let mut plan = vec![0; board.count];
            single(board).junior(&mut plan);
            plan
        };
        self.count_events(&[
            (u == v && board.count > 1, Event::JuniorOfOneTip),
            (u != v, Event::JuniorOfTwoTips),
            (any_both && on_u > on_v, Event::JuniorToTheFirst),
            (any_both && on_v > on_u, Event::JuniorToTheSecond),
            (any_both && on_u == on_v, Event::JuniorEqualSides),
            (mirrored_pairs() != (u, v), Event::JuniorSeveralChoices),
            (u != v && lower, Event::JuniorLaterChoice),
            (is_counted(board) && plan_of_single() != planned.bytes, Event::JuniorByQuantities),
            (planned.answer[1] < quick.answer[1], Event::JuniorFewerThanQuick),
            (board.count == JUNIOR_LINES, Event::JuniorOf64Lines),
            (board.rack == JUNIOR_TIPS && v + 1 == JUNIOR_TIPS, Event::JuniorOfRack8),
        ]);
    }
}
