//! Mistakes in planning for the Junior.

use super::changes::{at_refusal, board_of, on_accepted, on_head, on_single, touch};
use super::Mistake;
use crate::check::{call_library, Buffers, Call};
use crate::refusal;
use job_file::AT_RACK;
use second::interface::ANSWER_PLACES;
use second::{pairs_in, Board, JUNIOR_LINES, JUNIOR_TIPS};

pub(super) const OF_JUNIOR: &[Mistake] = &[
    ("the Junior refuses 64 lines", |call, lent| on_size(call, lent, |board| board.count == JUNIOR_LINES, 24)),
    ("the Junior refuses a rack of 8", |call, lent| on_size(call, lent, |board| board.rack == JUNIOR_TIPS, 1)),
    ("the Junior takes a rack of 9 whose last tip no line has", |call, lent| {
        let narrow = board_of(lent).is_some_and(|board| board.named_tips() < 1 << JUNIOR_TIPS);
        match call {
            Call::Junior { .. } if narrow => on_head(call, lent, |head| {
                if head.rack == JUNIOR_TIPS + 1 {
                    head.bytes[AT_RACK] = JUNIOR_TIPS as u8
                }
            }),
            _ => call_library(call, lent),
        }
    }),
    ("the Junior looks at the rack before the number of lines", |call, lent| {
        on_refused(call, lent, refusal::TOO_MANY_LINES, |board, _| {
            (board.rack > JUNIOR_TIPS).then_some(refusal::RACK_SIZE)
        })
    }),
    ("the Junior looks at the plan buffer before the rack", |call, lent| {
        on_refused(call, lent, refusal::RACK_SIZE, |board, plan| {
            (plan < board.count && board.count <= JUNIOR_LINES).then_some(refusal::SHORT_PLAN)
        })
    }),
    ("the Junior looks at the tips before the plan buffer", |call, lent| {
        on_refused(call, lent, refusal::SHORT_PLAN, |board, _| {
            let number = board.clone().junior(&mut [0; JUNIOR_LINES]).number;
            (number == second::refusal::NO_TWO_TIPS).then_some(refusal::NO_TWO_TIPS)
        })
    }),
    ("the Junior refuses a plan buffer of n bytes", |call, lent| match (call, board_of(lent)) {
        (Call::Junior { .. }, Some(board)) if board.count > 0 && lent.bytes.length == board.count => {
            lent.bytes.length -= 1;
            let returned = call_library(call, lent);
            lent.bytes.length += 1;
            returned
        }
        _ => call_library(call, lent),
    }),
    ("the highest tips that reach the most pairs win", |call, lent| on_junior_mirrored(call, lent)),
    ("lines that allow both tips go to the lower one", |call, lent| on_both(call, lent, |u, _| u, |_, _| true)),
    ("lines that allow both tips go to the higher one", |call, lent| on_both(call, lent, |_, v| v, |_, _| true)),
    ("lines that allow both tips go to the higher one where pairs are equal", |call, lent| {
        on_both(call, lent, |_, v| v, |on_u, on_v| on_u == on_v)
    }),
    ("the first line that allows both tips goes to the other side", |call, lent| {
        on_junior(call, lent, |board, lent| {
            let (u, v) = tips_in(lent);
            let both = board.lines().position(|line| u != v && line.set >> u & 1 == 1 && line.set >> v & 1 == 1);
            if let Some(line) = both {
                let tip = &mut lent.bytes.inside()[line];
                *tip = if u64::from(*tip) == u { v as u8 } else { u as u8 };
                put_pairs(board, lent);
            }
        })
    }),
    ("the Junior counts lines and not placements", |call, lent| {
        on_single(call, lent, |call| matches!(call, Call::Junior { .. }))
    }),
    ("the Junior counts pairs between lines alone", |call, lent| {
        on_junior(call, lent, |board, lent| {
            let plan = &lent.bytes.inside()[..board.count];
            let pairs = pairs_in(plan);
            lent.answer.inside()[1] = pairs.into();
        })
    }),
    ("the Junior's pairs have 16 bits", |call, lent| {
        on_junior(call, lent, |_, lent| lent.answer.inside()[1] &= 0xFFFF)
    }),
    ("the Junior's tips are told in the other order", |call, lent| {
        on_junior(call, lent, |_, lent| lent.answer.inside()[2..4].reverse())
    }),
    ("one tip for all is told with tip 0", |call, lent| {
        on_junior(call, lent, |_, lent| {
            if lent.answer.inside()[2] == lent.answer.inside()[3] {
                lent.answer.inside()[2] = 0;
            }
        })
    }),
    ("one tip for all is told once", |call, lent| {
        on_junior(call, lent, |_, lent| {
            if lent.answer.inside()[2] == lent.answer.inside()[3] {
                lent.answer.inside()[3] = 0;
            }
        })
    }),
    ("one tip for all is not taken where two serve", |call, lent| {
        on_junior(call, lent, |board, lent| {
            let (u, v) = tips_in(lent);
            let other = (0..board.rack as u64).find(|&tip| tip > u && board.sets[0] >> tip & 1 == 1);
            if let (true, Some(other)) = (u == v && board.count > 1, other) {
                lent.bytes.inside()[0] = other as u8;
                lent.answer.inside()[3] = other;
                put_pairs(board, lent);
            }
        })
    }),
    ("without lines the Junior is refused", |call, lent| {
        let returned = call_library(call, lent);
        match (call, returned, board_of(lent)) {
            (Call::Junior { .. }, 0, Some(board)) if board.count == 0 => 31,
            _ => returned,
        }
    }),
    ("without lines the Junior's last tip is told", |call, lent| {
        on_junior(call, lent, |board, lent| {
            if board.count == 0 {
                lent.answer.inside()[3] = board.rack as u64 - 1;
            }
        })
    }),
    ("refusal 31 tells the last line", |call, lent| {
        let count = board_of(lent).map_or(0, |board| board.count as u64);
        at_refusal(call, lent, &[refusal::NO_TWO_TIPS], |lent| lent.answer.inside()[0] = count.saturating_sub(1))
    }),
    ("refusal 31 writes to the plan", |call, lent| at_refusal(call, lent, &[refusal::NO_TWO_TIPS], touch)),
    ("refusal 24 tells the number of lines", |call, lent| {
        let count = board_of(lent).map_or(0, |board| board.count as u64);
        at_refusal(call, lent, &[refusal::TOO_MANY_LINES], |lent| lent.answer.inside()[0] = count)
    }),
    ("the Junior's plan bytes from n on are cleared", |call, lent| {
        on_junior(call, lent, |board, lent| lent.bytes.inside()[board.count..].fill(0))
    }),
];

fn on_junior(call: &Call, lent: &mut Buffers, change: impl FnOnce(&Board, &mut Buffers)) -> u64 {
    on_accepted(call, lent, Call::Junior { plan: 0, answer: ANSWER_PLACES }.column(), change)
}

/// The tips that are told.
fn tips_in(lent: &mut Buffers) -> (u64, u64) {
    (lent.answer.inside()[2], lent.answer.inside()[3])
}

/// The pairs of the plan that is now in the buffer.
fn put_pairs(board: &Board, lent: &mut Buffers) {
    let plan = &lent.bytes.inside()[..board.count];
    let pairs = pairs_in(&board.placed(plan));
    lent.answer.inside()[1] = pairs.into();
}

/// A plan for the Junior that is refused with this number on boards of one size.
fn on_size(call: &Call, lent: &mut Buffers, applies: fn(&Board) -> bool, number: u64) -> u64 {
    let given = lent.clone();
    let returned = call_library(call, lent);
    match (call, returned, board_of(lent)) {
        (Call::Junior { .. }, 0, Some(board)) if applies(&board) => {
            *lent = given;
            lent.answer.inside()[..ANSWER_PLACES].fill(0);
            number
        }
        _ => returned,
    }
}

/// A refusal of the Junior with another number, given the board and the length of the plan buffer.
fn on_refused(call: &Call, lent: &mut Buffers, number: u64, other: fn(&Board, usize) -> Option<u64>) -> u64 {
    let returned = call_library(call, lent);
    match (*call, board_of(lent)) {
        (Call::Junior { plan, .. }, Some(board)) if returned == number => other(&board, plan).unwrap_or(returned),
        _ => returned,
    }
}

/// The lines that have both tips on the side given, where the pairs of both sides are such.
fn on_both(call: &Call, lent: &mut Buffers, side: fn(u64, u64) -> u64, applies: fn(u32, u32) -> bool) -> u64 {
    on_junior(call, lent, |board, lent| {
        let (u, v) = tips_in(lent);
        let with_both_on = |tip: u64, plan: &[u8]| -> Vec<u8> {
            let has_both = |set: u64| u != v && set >> u & 1 == 1 && set >> v & 1 == 1;
            plan.iter()
                .zip(board.lines())
                .map(|(&laid, line)| if has_both(line.set) { tip as u8 } else { laid })
                .collect()
        };
        let plan = lent.bytes.inside()[..board.count].to_vec();
        let pairs_on = |tip: u64| pairs_in(&board.placed(&with_both_on(tip, &plan)));
        if applies(pairs_on(u), pairs_on(v)) {
            lent.bytes.inside()[..board.count].copy_from_slice(&with_both_on(side(u, v), &plan));
            put_pairs(board, lent);
        }
    })
}

/// The plan with the tips counted from the other end.
fn on_junior_mirrored(call: &Call, lent: &mut Buffers) -> u64 {
    match (call, board_of(lent)) {
        (Call::Junior { .. }, Some(board)) => {
            let returned = super::changes::mirrored(call, lent, &board);
            if returned == 0 && board.count > 0 {
                let (u, v) = tips_in(lent);
                let last = board.rack as u64 - 1;
                lent.answer.inside()[2..4].copy_from_slice(&[last - v, last - u]);
            }
            returned
        }
        _ => call_library(call, lent),
    }
}
