//! Mistakes with a mounted tip.

use super::changes::{
    at_refusal, board_of, lay_first, lowest, missed, mounted_tip, on_best, on_quick, placements_with, put_quick_plan,
    refusal, touch, with_any_mounted, with_mounted,
};
use super::Mistake;
use crate::check::{call_library, Buffers, Call};
use crate::files::file_of;
use crate::refusal;
use second::interface::{ANSWER_PLACES, NO_TIP};
use second::{Board, Line};

pub(super) const OF_REFUSED_MOUNTED_TIPS: &[Mistake] = &[
    ("a mounted tip outside the rack is taken for none", |call, lent| {
        on_mounted(call, lent, |rack, tip| if tip >= rack { NO_TIP } else { tip })
    }),
    ("a mounted tip with the number of the rack size is taken for none", |call, lent| {
        on_mounted(call, lent, |rack, tip| if tip == rack { NO_TIP } else { tip })
    }),
    ("a mounted tip below 64 is taken for none outside the rack", |call, lent| {
        on_mounted(call, lent, |rack, tip| if tip >= rack && tip < 64 { NO_TIP } else { tip })
    }),
    ("the last tip of the rack is refused as mounted", |call, lent| {
        on_mounted(call, lent, |rack, tip| if tip + 1 == rack { rack } else { tip })
    }),
    ("the mounted tip has 8 bits", |call, lent| on_mounted(call, lent, |_, tip| tip & 0xFF)),
    ("the mounted tip has 32 bits", |call, lent| on_mounted(call, lent, |_, tip| tip & 0xFFFF_FFFF)),
    ("the largest number but none is taken for none", |call, lent| {
        on_mounted(call, lent, |_, tip| if tip == NO_TIP - 1 { NO_TIP } else { tip })
    }),
    ("no mounted tip is refused", |call, lent| {
        let call = &with_any_mounted(call, |tip| if tip == NO_TIP { NO_TIP - 1 } else { tip });
        call_library(call, lent)
    }),
    ("refusal 16 comes after 4", |call, lent| {
        let returned = call_library(call, lent);
        match board_of(lent) {
            Some(board) if refusal(call, returned) == refusal::MOUNTED_OUTSIDE && lent.bytes.length < board.count => {
                refusal::SHORT_PLAN
            }
            _ => returned,
        }
    }),
    ("refusal 16 comes after 5", |call, lent| {
        let returned = call_library(call, lent);
        match (call, board_of(lent)) {
            (Call::Best { plan, table, .. }, Some(board))
                if returned == refusal::MOUNTED_OUTSIDE && *plan >= board.count && *table < board.rack * board.rack =>
            {
                5
            }
            _ => returned,
        }
    }),
    ("refusal 16 comes after 25", |call, lent| {
        let returned = call_library(call, lent);
        let no_run = |board: &Board| board.lines().position(|line| missed(line.set, board.named_tips()) != 0);
        match (call, board_of(lent)) {
            (Call::Best { plan, table, .. }, Some(board))
                if returned == refusal::MOUNTED_OUTSIDE
                    && *plan >= board.count
                    && *table >= board.rack * board.rack =>
            {
                no_run(&board).map_or(returned, |line| {
                    lent.answer.inside()[0] = line as u64;
                    25
                })
            }
            _ => returned,
        }
    }),
    ("refusal 16 comes before those of reading", |call, lent| {
        let returned = call_library(call, lent);
        let is_outside = mounted_tip(call).is_some_and(|tip| tip >= 64);
        if is_outside
            && !matches!(refusal(call, returned), refusal::ACCEPTED | refusal::MOUNTED_OUTSIDE | refusal::SHORT_ANSWER)
        {
            lent.answer.inside()[..ANSWER_PLACES].fill(0);
            return 16;
        }
        returned
    }),
    ("refusal 16 comes before 100", |call, lent| {
        let returned = call_library(call, lent);
        let is_outside = mounted_tip(call).is_some_and(|tip| tip >= 64);
        if is_outside && refusal(call, returned) == 100 {
            16
        } else {
            returned
        }
    }),
    ("refusal 16 names the mounted tip", |call, lent| {
        at_refusal(call, lent, &[refusal::MOUNTED_OUTSIDE], |lent| {
            lent.answer.inside()[0] = mounted_tip(call).unwrap_or(0) as u64
        })
    }),
    ("refusal 16 writes to the plan", |call, lent| at_refusal(call, lent, &[refusal::MOUNTED_OUTSIDE], touch)),
    ("refusal 16 clears the table", |call, lent| {
        at_refusal(call, lent, &[refusal::MOUNTED_OUTSIDE], |lent| lent.table.inside().fill(0))
    }),
];

pub(super) const OF_MOUNTED_TIPS: &[Mistake] = &[
    ("the mounted tip is not looked at in quick sharing", |call, lent| match call {
        Call::Quick { .. } => on_mounted(call, lent, |rack, tip| if tip < rack { NO_TIP } else { tip }),
        _ => call_library(call, lent),
    }),
    ("the mounted tip is not looked at in best sharing", |call, lent| match call {
        Call::Best { .. } => on_mounted(call, lent, |rack, tip| if tip < rack { NO_TIP } else { tip }),
        _ => call_library(call, lent),
    }),
    ("the mounted tip is not looked at from 32 on", |call, lent| {
        on_mounted(call, lent, |rack, tip| if (32..rack).contains(&tip) { NO_TIP } else { tip })
    }),
    ("quick sharing begins with the mounted tip, among the tied or not", |call, lent| {
        on_quick_with_mounted(call, lent, |_, mounted| (mounted, Some(mounted)))
    }),
    ("in quick sharing the mounted tip wins in the first round alone", |call, lent| {
        on_quick_with_mounted(call, lent, |tied, mounted| (chosen_of(tied, mounted), None))
    }),
    ("in quick sharing the mounted tip wins after the first round alone", |call, lent| {
        on_quick_with_mounted(call, lent, |tied, mounted| (lowest(tied).into(), Some(mounted)))
    }),
    ("best sharing begins with the mounted tip, among the tied or not", |call, lent| {
        on_best_with_mounted(call, lent, |_, mounted| (mounted, Some(mounted)))
    }),
    ("in best sharing the mounted tip wins in the whole rack alone", |call, lent| {
        on_best_with_mounted(call, lent, |tied, mounted| (chosen_of(tied, mounted), None))
    }),
    ("in best sharing the mounted tip wins beside the first tip alone", |call, lent| {
        on_best_with_mounted(call, lent, |tied, mounted| (lowest(tied).into(), Some(mounted)))
    }),
    ("a mounted tip that no line names is chosen in best sharing", |call, lent| {
        let given = lent.bytes.clone().inside().to_vec();
        on_best(call, lent, |board, lent| {
            let Some(tip) = mounted_tip(call).filter(|tip| board.named_tips() >> tip & 1 == 0) else { return };
            let (rack, table) = (board.rack, lent.table.inside());
            let below = if tip > 0 { table[tip - 1] } else { 0 };
            let above = if tip + 1 < rack { table[(tip + 1) * rack + rack - 1] } else { 0 };
            if below + above == table[rack - 1] {
                // A line on both sides of it lies in neither.
                for (line, Line { set, .. }) in board.lines().enumerate() {
                    if set >> tip != 0 && set & ((1 << tip) - 1) != 0 {
                        lent.bytes.inside()[line] = given[line];
                    }
                }
            }
        })
    }),
];

/// The call on a good file with another mounted tip, given the rack size and the tip.
fn on_mounted(call: &Call, lent: &mut Buffers, edit: fn(usize, usize) -> usize) -> u64 {
    match board_of(lent) {
        Some(board) => call_library(&with_mounted(call, |tip| edit(board.rack, tip)), lent),
        None => call_library(call, lent),
    }
}

/// The mounted tip of a call, where some line names it.
fn named_mounted_tip(call: &Call, board: &Board) -> Option<usize> {
    mounted_tip(call).filter(|tip| board.named_tips() >> tip & 1 == 1)
}

/// The mounted tip where it is among the tied, else the lowest of them.
fn chosen_of(tied: u64, mounted: usize) -> usize {
    if tied >> mounted & 1 == 1 {
        mounted
    } else {
        lowest(tied).into()
    }
}

/// What a plan with a mounted tip begins with, and the mounted tip of the rest, given the tied tips and the mounted one.
type Beginning = fn(u64, usize) -> (usize, Option<usize>);

/// Quick sharing with a mounted tip that some line names, by another beginning.
fn on_quick_with_mounted(call: &Call, lent: &mut Buffers, begin: Beginning) -> u64 {
    on_quick(call, lent, |board, lent| {
        if let Some(mounted) = named_mounted_tip(call, board) {
            let (first, later) = begin(board.clone().common_tip().value.tips, mounted);
            put_quick_plan(board, lent, |plan| {
                lay_first(board, first as u8, plan, |board, plan| {
                    board.quick(later, plan);
                })
            });
        }
    })
}

/// Best sharing with a mounted tip that some line names, by another beginning.
fn on_best_with_mounted(call: &Call, lent: &mut Buffers, begin: Beginning) -> u64 {
    on_best(call, lent, |board, lent| {
        if let Some(mounted) = named_mounted_tip(call, board) {
            let (first, later) = begin(tied_in_rack(board, lent.table.inside()), mounted);
            let plan = &mut lent.bytes.inside()[..board.count];
            lay_first(board, first as u8, plan, |board, plan| {
                // No line of it has the first tip, so that both sides of it are planned as if it were not there.
                library::best(&file_of(&board), later, plan, &mut [0; 4096]).expect("a board of runs");
            });
        }
    })
}

/// The named tips that reach the most pairs of the whole rack, by its table.
fn tied_in_rack(board: &Board, table: &[u32]) -> u64 {
    let (rack, named) = (board.rack, board.named_tips());
    let reaches = |&tip: &usize| {
        let placements = placements_with(board, tip) as u32;
        let below = if tip > 0 { table[tip - 1] } else { 0 };
        let above = if tip + 1 < rack { table[(tip + 1) * rack + rack - 1] } else { 0 };
        named >> tip & 1 == 1 && placements * placements.saturating_sub(1) / 2 + below + above == table[rack - 1]
    };
    (0..rack).filter(reaches).fold(0, |set, tip| set | 1 << tip)
}
