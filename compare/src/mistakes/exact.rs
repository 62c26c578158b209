//! Mistakes in exact sharing.

use super::changes::{
    at_refusal, board_of, lowest, mounted_tip, on_accepted, on_file, on_single, refusal, touch, with_mounted,
};
use super::Mistake;
use crate::check::{call_library, Buffers, Call};
use crate::files::file_of;
use crate::refusal;
use second::interface::{ANSWER_PLACES, NO_TIP};
use second::{pairs_in, Board, Line, EXACT_TIPS};

/// A higher price counts as this one.
const HIGHEST_PRICE: u32 = 2_096_129;

pub(super) const OF_EXACT: &[Mistake] = &[
    ("the price is not looked at", |call, lent| with_price(call, lent, |_| 0)),
    ("the price has 8 bits", |call, lent| with_price(call, lent, |price| price & 0xFF)),
    ("the price has 16 bits", |call, lent| with_price(call, lent, |price| price & 0xFFFF)),
    ("the price has 31 bits", |call, lent| with_price(call, lent, |price| price & 0x7FFF_FFFF)),
    ("a price above 2,096,128 counts as that", |call, lent| {
        with_price(call, lent, |price| price.min(HIGHEST_PRICE - 1))
    }),
    ("a price of 2,096,130 is not lowered", |call, lent| {
        on_exact(call, lent, |_, price, lent| {
            if price == HIGHEST_PRICE + 1 {
                let (within, scores) = halves(lent);
                let empty = |set: usize| within[set] == 0;
                (0..within.len()).filter(|&set| empty(set)).for_each(|set| scores[set] += set.count_ones());
            }
        })
    }),
    ("a tip is paid for that no line is on", |call, lent| {
        on_exact(call, lent, |board, _, lent| {
            lent.answer.inside()[2] = board.named_tips().count_ones().into();
        })
    }),
    ("the tips of the plan are not returned", |call, lent| {
        on_exact(call, lent, |_, _, lent| lent.answer.inside()[2] = 0)
    }),
    ("pairs and tips are returned in the other order", |call, lent| {
        on_exact(call, lent, |_, _, lent| lent.answer.inside().swap(1, 2))
    }),
    ("the score of all tips is returned as the pairs", |call, lent| {
        on_exact(call, lent, |_, _, lent| {
            let (_, scores) = halves(lent);
            lent.answer.inside()[1] = scores[scores.len() - 1].into();
        })
    }),
    ("the exact pairs have 16 bits", |call, lent| on_exact(call, lent, |_, _, lent| lent.answer.inside()[1] &= 0xFFFF)),
    ("exact sharing counts lines and not placements", |call, lent| {
        on_single(call, lent, |call| matches!(call, Call::Exact { .. }))
    }),
    ("exact sharing lays the quick plan", |call, lent| {
        on_exact_plan(call, lent, |board, mounted, plan| {
            library::quick(&file_of(board), mounted, plan).expect("a good file");
        })
    }),
    ("exact sharing moves lines among the tips of the quick plan alone", |call, lent| {
        on_exact_plan(call, lent, |board, mounted, plan| {
            library::quick(&file_of(board), mounted, plan).expect("a good file");
            let used = plan.iter().fold(0, |used, tip| used | 1 << tip);
            let lines: Vec<Line> = board.lines().map(|line| Line { set: line.set & used, ..line }).collect();
            let few = Board::of_lines(board.rack, &lines);
            let mut table = vec![0; 2 << few.named_tips().count_ones()];
            library::exact(&file_of(&few), mounted, 0, plan, &mut table).expect("a good file");
        })
    }),
    ("each line is on the lowest tip of the exact plan that it allows", |call, lent| {
        on_exact_plan(call, lent, |board, _, plan| {
            let used = plan.iter().fold(0, |used, tip| used | 1_u64 << tip);
            plan.iter_mut().zip(board.lines()).for_each(|(tip, line)| *tip = lowest(line.set & used));
        })
    }),
    ("the highest of the tips that attain the score is taken", |call, lent| {
        on_exact(call, lent, |board, price, lent| {
            let turned = |tip: usize| board.rack - 1 - tip;
            let sets: Vec<Line> =
                board.lines().map(|line| Line { set: line.set.reverse_bits() >> (64 - board.rack), ..line }).collect();
            let mut table = vec![0; 2 << board.named_tips().count_ones()];
            let plan = &mut lent.bytes.inside()[..board.count];
            let file = file_of(&Board::of_lines(board.rack, &sets));
            let found = library::exact(&file, mounted_tip(call).map(turned), price, plan, &mut table);
            let found = found.expect("a good file");
            plan.iter_mut().for_each(|tip| *tip = turned((*tip).into()) as u8);
            lent.answer.inside()[1..3].copy_from_slice(&[found.pairs, found.tips]);
        })
    }),
    ("the mounted tip is not looked at in exact sharing", |call, lent| match (call, board_of(lent)) {
        (Call::Exact { .. }, Some(board)) => {
            call_library(&with_mounted(call, |tip| if tip < board.rack { NO_TIP } else { tip }), lent)
        }
        _ => call_library(call, lent),
    }),
    ("the mounted tip is counted among the named ones", |call, lent| match (call, board_of(lent)) {
        (Call::Exact { .. }, Some(board)) => {
            let named: Vec<usize> = (0..64).filter(|&tip| board.named_tips() >> tip & 1 == 1).collect();
            let by_rank = |tip: usize| if tip < board.rack { named.get(tip).copied().unwrap_or(NO_TIP) } else { tip };
            call_library(&with_mounted(call, by_rank), lent)
        }
        _ => call_library(call, lent),
    }),
    ("lines that are no runs are refused in exact sharing", |call, lent| {
        instead_of_accepting(call, lent, 25, |board| {
            board.clone().best(None, &mut [0; 512], &mut [0; 4096]).number == 25
        })
    }),
    ("20 named tips are refused", |call, lent| {
        instead_of_accepting(call, lent, 35, |board| board.named_tips().count_ones() as usize == EXACT_TIPS)
    }),
    ("a rack above 20 is refused in exact sharing", |call, lent| {
        instead_of_accepting(call, lent, 35, |board| board.rack > EXACT_TIPS)
    }),
    ("a board without lines is refused in exact sharing", |call, lent| {
        instead_of_accepting(call, lent, 5, |board| board.count == 0)
    }),
    ("too many named tips are looked at before the plan", |call, lent| {
        instead_of(call, lent, 4, |board, _| board.named_tips().count_ones() as usize > EXACT_TIPS, 35)
    }),
    ("too many named tips are looked at before the mounted tip", |call, lent| {
        instead_of(call, lent, 16, |board, _| board.named_tips().count_ones() as usize > EXACT_TIPS, 35)
    }),
    ("the table is looked at before the number of named tips", |call, lent| {
        instead_of(call, lent, 35, |board, table| table < places_of(board), 5)
    }),
    ("the table is looked at before the plan in exact sharing", |call, lent| {
        instead_of(call, lent, 4, |board, table| table < places_of(board), 5)
    }),
    ("refusal 35 returns the number of named tips", |call, lent| {
        let named = board_of(lent).map_or(0, |board| board.named_tips().count_ones());
        at_refusal(call, lent, &[refusal::TOO_MANY_NAMED], |lent| lent.answer.inside()[0] = named.into())
    }),
    ("refusal 35 is that of a table that is too short", |call, lent| match call_library(call, lent) {
        refusal::TOO_MANY_NAMED if matches!(call, Call::Exact { .. }) => refusal::SHORT_TABLE,
        returned => returned,
    }),
    ("refusal 35 writes to the plan", |call, lent| at_refusal(call, lent, &[refusal::TOO_MANY_NAMED], touch)),
    ("a plan buffer of n bytes is refused in exact sharing", |call, lent| match (call, board_of(lent)) {
        (Call::Exact { .. }, Some(board)) if board.count > 0 && lent.bytes.length == board.count => {
            lent.bytes.length -= 1;
            let returned = call_library(call, lent);
            lent.bytes.length += 1;
            returned
        }
        _ => call_library(call, lent),
    }),
    ("plan bytes from n on are cleared in exact sharing", |call, lent| {
        on_exact(call, lent, |board, _, lent| lent.bytes.inside()[board.count..].fill(0))
    }),
];

pub(super) const OF_TABLES: &[Mistake] = &[
    ("only lines of all tips of a set are counted in it", |call, lent| {
        on_exact(call, lent, |board, _, lent| {
            let named: Vec<usize> = (0..64).filter(|&tip| board.named_tips() >> tip & 1 == 1).collect();
            let rank_set = |set: u64| {
                (0..named.len()).filter(|&rank| set >> named[rank] & 1 == 1).fold(0, |set, rank| set | 1 << rank)
            };
            let (within, _) = halves(lent);
            within.fill(0);
            board.lines().for_each(|line| within[rank_set(line.set)] += u32::from(line.quantity));
        })
    }),
    ("a set without a line scores 0", |call, lent| {
        on_exact(call, lent, |_, _, lent| {
            let (within, scores) = halves(lent);
            let sets = (0..within.len()).filter(|&set| within[set] == 0);
            sets.for_each(|set| scores[set] = 0);
        })
    }),
    ("the scores are those without a price", |call, lent| {
        on_exact(call, lent, |board, _, lent| {
            let (_, scores) = halves(lent);
            let mut table = vec![0; 2 * scores.len()];
            library::exact(&file_of(board), None, 0, &mut vec![0; board.count], &mut table).expect("a good file");
            scores.copy_from_slice(&table[scores.len()..]);
        })
    }),
    ("the scores are pairs less the prices paid", |call, lent| {
        on_exact(call, lent, |_, price, lent| {
            let (_, scores) = halves(lent);
            let price = price.min(HIGHEST_PRICE);
            for (set, score) in scores.iter_mut().enumerate() {
                *score = score.wrapping_sub(price.wrapping_mul(set.count_ones()));
            }
        })
    }),
    ("the halves of the table change places", |call, lent| {
        on_exact(call, lent, |_, _, lent| {
            let (within, scores) = halves(lent);
            within.swap_with_slice(scores);
        })
    }),
    ("bit 0 is the highest named tip", |call, lent| {
        on_exact(call, lent, |board, _, lent| {
            let tips = board.named_tips().count_ones();
            if tips > 0 {
                let (within, scores) = halves(lent);
                let turned = |set: usize| set.reverse_bits() >> (usize::BITS - tips);
                for half in [within, scores] {
                    let given = half.to_vec();
                    half.iter_mut().enumerate().for_each(|(set, place)| *place = given[turned(set)]);
                }
            }
        })
    }),
    ("places of the table from 2 * 2^r on are cleared", |call, lent| {
        on_exact(call, lent, |board, _, lent| {
            let places = 2 << board.named_tips().count_ones();
            lent.table.inside()[places..].fill(0);
        })
    }),
    ("the place behind the table is changed", |call, lent| {
        on_exact(call, lent, |_, _, lent| {
            let behind = lent.table.start + lent.table.length;
            lent.table.cells[behind] ^= 1;
        })
    }),
    ("the empty set is left as it was", |call, lent| {
        let before = match call {
            Call::Exact { .. } => lent.table.inside().first().copied(),
            _ => None,
        };
        on_exact(call, lent, |_, _, lent| {
            let (within, _) = halves(lent);
            within[0] = before.unwrap_or(0);
        })
    }),
    ("a table of 2 * 2^r places is refused", |call, lent| match (call, board_of(lent)) {
        (Call::Exact { .. }, Some(board)) if lent.table.length == places_of(&board) => {
            lent.table.length -= 1;
            let returned = call_library(call, lent);
            lent.table.length += 1;
            returned
        }
        _ => call_library(call, lent),
    }),
    ("a table of 2^r places is enough", |call, lent| {
        let returned = call_library(call, lent);
        match (*call, board_of(lent)) {
            (Call::Exact { mounted, price, plan, .. }, Some(board)) if returned == refusal::SHORT_TABLE => {
                let sets = 1 << board.named_tips().count_ones();
                if sets > lent.table.length || plan < board.count {
                    return returned;
                }
                let mut table = vec![0; 2 * sets];
                let mounted = Some(mounted).filter(|&tip| tip != NO_TIP);
                let laid = &mut lent.bytes.inside()[..board.count];
                let found = library::exact(&file_of(&board), mounted, price, laid, &mut table).expect("a good file");
                lent.table.inside()[..sets].copy_from_slice(&table[..sets]);
                lent.answer.inside()[1..3].copy_from_slice(&[found.pairs, found.tips]);
                0
            }
            _ => returned,
        }
    }),
    ("a table for the tips of the rack is asked for", |call, lent| match (*call, board_of(lent)) {
        (Call::Exact { table, .. }, Some(board)) if board.rack <= EXACT_TIPS && table < 2 << board.rack => {
            instead_of_accepting(call, lent, 5, |_| true)
        }
        _ => call_library(call, lent),
    }),
    ("refusal 5 clears the table in exact sharing", |call, lent| match call {
        Call::Exact { .. } => at_refusal(call, lent, &[refusal::SHORT_TABLE], |lent| lent.table.inside().fill(0)),
        _ => call_library(call, lent),
    }),
    ("the lines are put in the order of their sets", |call, lent| match (call, board_of(lent)) {
        (Call::Exact { .. }, Some(board)) => on_file(call, lent, |file| {
            let mut lines: Vec<Line> = board.lines().collect();
            lines.sort_by_key(|line| line.set);
            *file = file_of(&Board::of_lines(board.rack, &lines));
        }),
        _ => call_library(call, lent),
    }),
];

/// What an accepted call wrote, changed, given the board and the price.
fn on_exact(call: &Call, lent: &mut Buffers, change: impl FnOnce(&Board, u32, &mut Buffers)) -> u64 {
    let Call::Exact { price, .. } = *call else { return call_library(call, lent) };
    on_accepted(call, lent, call.column(), |board, lent| change(board, price, lent))
}

/// Another plan, with its own pairs and tips.
fn on_exact_plan(call: &Call, lent: &mut Buffers, change: fn(&Board, Option<usize>, &mut [u8])) -> u64 {
    let mounted = mounted_tip(call);
    on_exact(call, lent, |board, _, lent| {
        let plan = &mut lent.bytes.inside()[..board.count];
        change(board, mounted, plan);
        let used = (0..64).filter(|tip| plan.contains(tip)).count();
        let pairs = pairs_in(&board.placed(plan));
        lent.answer.inside()[1..3].copy_from_slice(&[pairs.into(), used as u64]);
    })
}

/// The places of a table that exact sharing needs, of more tips than it takes more than any.
fn places_of(board: &Board) -> usize {
    match board.named_tips().count_ones() as usize {
        tips @ 0..=EXACT_TIPS => 2 << tips,
        _ => usize::MAX,
    }
}

/// The placements within each set of named tips, and the scores.
fn halves(lent: &mut Buffers) -> (&mut [u32], &mut [u32]) {
    let tips = board_of(lent).expect("a good file").named_tips().count_ones();
    lent.table.inside()[..2 << tips].split_at_mut(1 << tips)
}

/// Exact sharing with another price.
fn with_price(call: &Call, lent: &mut Buffers, edit: fn(u32) -> u32) -> u64 {
    match *call {
        Call::Exact { mounted, price, plan, table, answer } => {
            call_library(&Call::Exact { mounted, price: edit(price), plan, table, answer }, lent)
        }
        _ => call_library(call, lent),
    }
}

/// Exact sharing refused with this number on some boards that are shared.
fn instead_of_accepting(call: &Call, lent: &mut Buffers, number: u64, applies: fn(&Board) -> bool) -> u64 {
    let Call::Exact { .. } = call else { return call_library(call, lent) };
    let given = lent.clone();
    let returned = call_library(call, lent);
    match board_of(lent) {
        Some(board) if returned == 0 && applies(&board) => {
            *lent = given;
            lent.answer.inside()[..ANSWER_PLACES].fill(0);
            number
        }
        _ => returned,
    }
}

/// Another number in the place of a refusal, given the board and the length of the table.
fn instead_of(call: &Call, lent: &mut Buffers, number: u64, applies: fn(&Board, usize) -> bool, other: u64) -> u64 {
    let returned = call_library(call, lent);
    match (*call, board_of(lent)) {
        (Call::Exact { table, .. }, Some(board)) if refusal(call, returned) == number && applies(&board, table) => {
            other
        }
        _ => returned,
    }
}
