//! Mistakes in quick sharing.

use super::changes::{
    at_refusal, board_of, lowest, mirrored, on_quick, on_quick_plan, placements_with, renumbered, touch,
};
use super::Mistake;
use crate::check::{call_library, Buffers, Call};
use crate::refusal;
use second::Board;

pub(super) const OF_QUICK: &[Mistake] = &[
    ("a tie goes to the highest tip", |call, lent| on_quick_mirrored(call, lent, |_| true)),
    ("a tie goes to the highest tip with a rack above 32", |call, lent| {
        on_quick_mirrored(call, lent, |board| board.rack > 32)
    }),
    ("a tie goes to the highest tip with a rack of 37", |call, lent| {
        on_quick_mirrored(call, lent, |board| board.rack == 37)
    }),
    ("a tie goes to a tip of the first line", |call, lent| match (call, board_of(lent)) {
        (Call::Quick { .. }, Some(board)) if board.count > 0 => {
            let (first, others): (Vec<usize>, Vec<usize>) =
                (0..board.rack).partition(|tip| board.sets[0] >> tip & 1 == 1);
            renumbered(call, lent, &board, &[first, others].concat())
        }
        _ => call_library(call, lent),
    }),
    ("planned lines are counted too", |call, lent| {
        on_quick_plan(call, lent, |board, plan| {
            for (tip_of, line) in plan.iter_mut().zip(board.lines()) {
                let own = (0..board.rack).rev().filter(|tip| line.set >> tip & 1 == 1);
                *tip_of = own.max_by_key(|&tip| placements_with(board, tip)).expect("a tip") as u8;
            }
        })
    }),
    ("after the first round each line takes its lowest tip", |call, lent| {
        on_quick_plan(call, lent, |board, plan| {
            let chosen = lowest(board.clone().common_tip().value.tips);
            for (tip, line) in plan.iter_mut().zip(board.lines()) {
                *tip = if line.set >> chosen & 1 == 1 { chosen } else { lowest(line.set) };
            }
        })
    }),
    ("line 511 takes its lowest tip", |call, lent| {
        on_quick_plan(call, lent, |board, plan| {
            if board.count == 512 {
                plan[511] = lowest(board.sets[511])
            }
        })
    }),
    ("a plan buffer of n bytes is refused", |call, lent| match (call, board_of(lent)) {
        (Call::Quick { .. }, Some(board)) if board.count > 0 && lent.bytes.length == board.count => {
            lent.bytes.length -= 1;
            let returned = call_library(call, lent);
            lent.bytes.length += 1;
            returned
        }
        _ => call_library(call, lent),
    }),
    ("refusal 4 writes to the plan", |call, lent| at_refusal(call, lent, &[refusal::SHORT_PLAN], touch)),
    ("plan bytes from n on are cleared", |call, lent| {
        on_quick(call, lent, |board, lent| {
            lent.bytes.inside()[board.count..].fill(0);
        })
    }),
    ("the byte after the plan buffer is changed", |call, lent| {
        on_quick(call, lent, |_, lent| {
            let after = lent.bytes.start + lent.bytes.length;
            lent.bytes.cells[after] ^= 1;
        })
    }),
    ("the byte before the plan buffer is changed", |call, lent| {
        on_quick(call, lent, |_, lent| {
            let before = lent.bytes.start - 1;
            lent.bytes.cells[before] ^= 1;
        })
    }),
    ("the number of pairs has 16 bits", |call, lent| on_quick(call, lent, |_, lent| lent.answer.inside()[1] &= 0xFFFF)),
    ("each pair is counted twice", |call, lent| on_quick(call, lent, |_, lent| lent.answer.inside()[1] *= 2)),
];

fn on_quick_mirrored(call: &Call, lent: &mut Buffers, applies: fn(&Board) -> bool) -> u64 {
    match (call, board_of(lent)) {
        (Call::Quick { .. }, Some(board)) if applies(&board) => mirrored(call, lent, &board),
        _ => call_library(call, lent),
    }
}
