//! Exact sharing, of boards of few named tips and of as many as it takes, with prices and mounted tips.

use second::interface::{ANSWER_PLACES, NO_TIP};
use second::{pairs_in, Board, Tried, EXACT_TIPS};

use super::{is_own_plan, numbers_outside, Run};
use crate::check::{Call, Difference, Outcome};
use crate::refusal;
use crate::tally::Event;

/// A higher price of a tip counts as this one.
const HIGHEST_PRICE: u32 = 2_096_129;
/// With at most this many named tips a board is shared exactly in every way; with more it takes long.
const FEW_TIPS: usize = 10;

/// The places of the table that a board needs.
fn places_of(board: &Board) -> usize {
    2 << board.named_tips().count_ones()
}

/// Exact sharing of the second implementation against every plan of a board of few tips, with some prices.
pub(super) fn against_every_plan(board: &Board, tried: &Tried) -> Result<(), String> {
    if board.named_tips().count_ones() as usize > FEW_TIPS {
        return Ok(());
    }
    for (price, mounted) in [(0, None), (1, Some(0)), (30, None), (2_096_128, None), (u32::MAX, Some(board.rack - 1))] {
        let (mut plan, mut table) = (vec![0; board.count], vec![0; places_of(board)]);
        let exact = board.clone().exact(mounted, price, &mut plan, &mut table).value;
        let used = (0..64).filter(|tip| plan.contains(tip)).count();
        let counted = price.min(HIGHEST_PRICE);
        let worth = i64::from(exact.pairs) - i64::from(counted) * i64::from(exact.tips);
        if !is_own_plan(board, &plan)
            || (pairs_in(&board.placed(&plan)), used) != (exact.pairs, exact.tips as usize)
            || worth != tried.most_with_price(counted)
        {
            return Err(format!("exact {plan:?} with {exact:?}, price {price}, {mounted:?}, every plan {tried:?}"));
        }
    }
    Ok(())
}

impl Run {
    /// A price of a tip: none, a few pairs, about as many as there are, and the highest that counts and more.
    pub(super) fn price(&mut self) -> u32 {
        let any = self.random.number() as u32;
        let (few, more) = (self.random.below(8) as u32, self.random.below(3000) as u32);
        let most = HIGHEST_PRICE;
        // As 31 bits would have it, this one is few.
        let few_in_31_bits = few | 1 << 31;
        self.random.one_of(&[
            0,
            0,
            1,
            few,
            few,
            more,
            any >> 8,
            most - 1,
            most,
            most + 1,
            u32::MAX,
            any,
            few_in_31_bits,
        ])
    }

    /// Plans without and with a price and a mounted tip in buffers that are long enough, and one in others,
    /// given quick and best.
    pub(super) fn exacts(
        &mut self,
        board: &Board,
        file: &[u8],
        quick: &Outcome,
        best: &Outcome,
    ) -> Result<(), Difference> {
        let (plan, answer, named) = (board.count, ANSWER_PLACES, board.named_tips().count_ones() as usize);
        if named > EXACT_TIPS {
            return self.too_many_tips(board, file);
        }
        let table = places_of(board);
        // Many tips take long.
        if named > FEW_TIPS && !self.random.once_in(if named > 16 { 60 } else { 6 }) {
            return Ok(());
        }
        let call = |mounted: usize, price: u32| Call::Exact { mounted, price, plan, table, answer };
        let bare = self.case(file, call(NO_TIP, 0))?;
        self.count_exact(board, quick, best, &bare);
        if named > FEW_TIPS {
            return Ok(());
        }
        let (mounted, price) = (self.random.below(board.rack), self.price());
        let with_mounted = self.case(file, call(mounted, 0))?;
        let priced = self.case(file, call(mounted, price))?;
        let fewest = self.case(file, call(NO_TIP, HIGHEST_PRICE))?;
        let (mounted_number, plan, table) =
            (self.mounted_number(board.rack), self.length_around(plan), self.length_around(table));
        let answer = self.answer_length();
        self.case(file, Call::Exact { mounted: mounted_number, price, plan, table, answer })?;
        let unused = priced.answer[2] < u64::from(board.named_tips().count_ones());
        self.count_events(&[
            (with_mounted.bytes != bare.bytes, Event::ExactByMounted),
            (priced.answer[2] < with_mounted.answer[2], Event::ExactByPrice),
            (fewest.answer[1] < bare.answer[1], Event::ExactFewestTips),
            (price > HIGHEST_PRICE, Event::ExactPriceTooHigh),
            (price > 0 && unused, Event::ExactTipWithoutLine),
        ]);
        Ok(())
    }

    fn count_exact(&mut self, board: &Board, quick: &Outcome, best: &Outcome, bare: &Outcome) {
        let named = board.named_tips().count_ones() as usize;
        let rack = u64::MAX >> (64 - board.rack);
        self.count_events(&[
            (best.returned == refusal::NO_RUN, Event::ExactWithoutRuns),
            (best.returned == refusal::NO_RUN && bare.answer[1] > quick.answer[1], Event::ExactAboveQuick),
            (best.returned == refusal::ACCEPTED && board.count > 1 && bare.bytes == best.bytes, Event::ExactAsBest),
            (board.count == 0, Event::ExactWithoutLines),
            (named > 0 && board.named_tips() != rack, Event::ExactWithAbsentTip),
        ]);
    }

    /// A board of more tips than are shared exactly, also with buffers and a mounted tip that are refused by themselves.
    fn too_many_tips(&mut self, board: &Board, file: &[u8]) -> Result<(), Difference> {
        let price = self.price();
        let (mounted, plan) = (self.mounted_number(board.rack), self.length_around(board.count));
        let (table, answer) = (self.random.below(40), self.answer_length());
        let returned = self.case(file, Call::Exact { mounted, price, plan, table, answer })?.returned;
        self.count_events(&[
            (returned == refusal::SHORT_PLAN, Event::ShortPlanAndManyTips),
            (returned == refusal::MOUNTED_OUTSIDE, Event::MountedAndManyTips),
            (returned == refusal::TOO_MANY_NAMED, Event::ManyTipsAndShortTable),
        ]);
        Ok(())
    }

    /// Every length of answer, plan and table, of long ones around the need, with prices, every tip of a small rack mounted,
    /// and numbers outside the rack.
    pub(super) fn each_exact(&mut self, board: &Board, file: &[u8]) -> Result<(), Difference> {
        let (count, rack, answer) = (board.count, board.rack, ANSWER_PLACES);
        let named = board.named_tips().count_ones() as usize;
        let shared = named <= FEW_TIPS;
        // Of more tips the places that they need are not lent.
        let table = if shared { places_of(board) } else { 0 };
        for answer in 0..=5 {
            self.case(file, Call::Exact { mounted: NO_TIP, price: 1, plan: count, table, answer })?;
        }
        for plan in (0..=count + 1).filter(|plan| count <= 8 || *plan + 2 >= count) {
            self.case(file, Call::Exact { mounted: NO_TIP, price: 1, plan, table, answer })?;
        }
        for table in (0..=table + 1).filter(|places| table <= 16 || *places + 2 >= table || *places == table / 2) {
            self.case(file, Call::Exact { mounted: NO_TIP, price: 2, plan: count, table, answer })?;
        }
        for mounted in numbers_outside(rack) {
            for (plan, table) in [(count, table), (count.saturating_sub(1), table), (count, table / 2)] {
                self.case(file, Call::Exact { mounted, price: 0, plan, table, answer })?;
            }
        }
        if shared {
            for price in [0, 1, 2, 3, 7, 100, 2000, HIGHEST_PRICE - 1, HIGHEST_PRICE, HIGHEST_PRICE + 1, u32::MAX] {
                self.case(file, Call::Exact { mounted: NO_TIP, price, plan: count, table: table + 9, answer })?;
            }
            for mounted in (0..rack).filter(|tip| rack <= 9 || tip % 9 == 0 || tip + 2 > rack) {
                self.case(file, Call::Exact { mounted, price: 1, plan: count, table, answer })?;
            }
        } else if named <= EXACT_TIPS {
            let table = places_of(board);
            let (mounted, price) = (self.random.below(rack), self.price());
            let shared =
                self.case(file, Call::Exact { mounted, price, plan: count, table: table + 1, answer })?.returned;
            self.count_events(&[(shared == 0 && named == EXACT_TIPS, Event::ExactOf20Tips)]);
            self.case(file, Call::Exact { mounted, price, plan: count, table: table - 1, answer })?;
        }
        Ok(())
    }
}
