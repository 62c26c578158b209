//! Plans along the list, with each tip of a small rack mounted and in buffers of every length.

use second::interface::{ANSWER_PLACES, NO_TIP};
use second::Board;

use super::{numbers_outside, Run};
use crate::check::{Call, Difference, Outcome};
use crate::refusal;
use crate::tally::Event;

/// The tip changes of a plan along the list, with the one before its first line where another tip is mounted.
pub fn changes_in(plan: &[u8], mounted: Option<usize>) -> usize {
    let before_first = mounted.zip(plan.first()).is_some_and(|(tip, &first)| tip != usize::from(first));
    plan.windows(2).filter(|pair| pair[0] != pair[1]).count() + usize::from(before_first)
}

impl Run {
    /// Plans without and with a mounted tip in buffers that are long enough, and one in others, given the quick plan.
    pub(super) fn alongs(&mut self, board: &Board, file: &[u8], quick: &Outcome) -> Result<(), Difference> {
        let (plan, answer) = (board.count, ANSWER_PLACES);
        let bare = self.case(file, Call::Along { mounted: NO_TIP, plan, answer })?;
        let tips = board.named_tips();
        let first_tips = board.lines().next().map_or(0, |line| line.set);
        let mounted = self.random.below(board.rack);
        let with_mounted = self.case(file, Call::Along { mounted, plan, answer })?;
        let (mounted_number, plan) = (self.mounted_number(board.rack), self.length_around(board.count));
        let call = Call::Along { mounted: mounted_number, plan, answer: self.answer_length() };
        let refused = self.case(file, call)?.returned;
        let several = || {
            // The same list with the tips of the rack counted from the other end.
            let turned = |set: u64| set.reverse_bits() >> (64 - board.rack);
            let sets: Vec<u64> = board.lines().map(|line| turned(line.set)).collect();
            let mut plan = vec![0; board.count];
            Board::of_sets(board.rack, &sets).along(None, &mut plan);
            plan.iter_mut().for_each(|tip| *tip = board.rack as u8 - 1 - *tip);
            plan != bare.bytes
        };
        let fewer = bare.answer[1] < changes_in(&quick.bytes, None) as u64;
        self.count_events(&[
            (board.count > 1 && bare.answer[1] == 0, Event::AlongOnOneTip),
            (bare.answer[1] > 255, Event::AlongManyChanges),
            (fewer, Event::AlongFewerThanQuick),
            (bare.answer[2] < quick.answer[1], Event::AlongFewerPairs),
            (several(), Event::AlongSeveralTips),
            (with_mounted.bytes != bare.bytes, Event::AlongByMounted),
            (first_tips >> mounted & 1 == 0 && board.count > 0, Event::AlongChangeBefore),
            (board.count > 0 && tips >> mounted & 1 == 0, Event::AlongMountedNotNamed),
            (refused == refusal::MOUNTED_OUTSIDE && plan < board.count, Event::AlongMountedAndShortPlan),
        ]);
        Ok(())
    }

    /// Every length of the answer and of the plan, of a long file around the needed one, every tip of a small rack mounted,
    /// and numbers outside the rack, in buffers that are long enough and that are not.
    pub(super) fn each_along(&mut self, board: &Board, file: &[u8]) -> Result<(), Difference> {
        let (count, rack) = (board.count, board.rack);
        for answer in 0..=5 {
            self.case(file, Call::Along { mounted: NO_TIP, plan: count, answer })?;
        }
        for plan in (0..=count + 1).filter(|plan| count <= 8 || *plan + 2 >= count) {
            self.case(file, Call::Along { mounted: NO_TIP, plan, answer: ANSWER_PLACES })?;
        }
        for mounted in (0..rack).filter(|tip| rack <= 9 || tip % 9 == 0 || tip + 2 > rack) {
            self.case(file, Call::Along { mounted, plan: count, answer: ANSWER_PLACES })?;
        }
        for mounted in numbers_outside(rack) {
            for plan in [count, count.saturating_sub(1)] {
                self.case(file, Call::Along { mounted, plan, answer: ANSWER_PLACES })?;
            }
        }
        Ok(())
    }
}
