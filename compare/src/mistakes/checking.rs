//! Mistakes in checking a plan that is handed in.

use super::changes::{after, at_refusal, board_of, on_single, touch};
use super::Mistake;
use crate::check::{call_library, Buffers, Call};
use crate::files::file_of;
use crate::handed::{keeps, stopping, wrapping, Handed, Rule};
use crate::refusal;
use second::{Board, Line};

pub(super) const OF_CHECKED_PLANS: &[Mistake] = &[
    ("only six bits of a plan byte are looked at in a check", |call, lent| {
        on_handed_plan(call, lent, |_, plan| plan.iter_mut().for_each(|tip| *tip %= 64))
    }),
    ("a plan byte of 64 is accepted", |call, lent| {
        on_handed_plan(call, lent, |_, plan| plan.iter_mut().filter(|tip| **tip == 64).for_each(|tip| *tip = 0))
    }),
    ("a line may be on any tip in a check", |call, lent| {
        on_check(call, lent, |board, handed, number| match number {
            refusal::FOREIGN_TIP if handed.pairs(board) != handed.claim => refusal::WRONG_CLAIM,
            refusal::FOREIGN_TIP if !board.table_shows(handed.claim, &handed.table) => refusal::WRONG_TABLE,
            refusal::FOREIGN_TIP => 0,
            _ => number,
        })
    }),
    ("a line may be on any tip that some line names in a check", |call, lent| {
        on_check(call, lent, |board, handed, number| {
            let named = board.named_tips();
            let are_named = handed.plan.iter().all(|&tip| tip < 64 && named >> tip & 1 == 1);
            match number {
                refusal::FOREIGN_TIP if are_named && handed.pairs(board) != handed.claim => refusal::WRONG_CLAIM,
                _ => number,
            }
        })
    }),
    ("the last line is not looked at in a check", |call, lent| {
        on_check(call, lent, |board, handed, number| {
            let (last, others) = handed.plan.split_last().unwrap_or((&0, &[]));
            let is_own = |(&tip, line): (&u8, Line)| tip < 64 && line.set >> tip & 1 == 1;
            let is_last = number == 19 && others.iter().zip(board.lines()).all(is_own) && *last < 64;
            match number {
                refusal::FOREIGN_TIP if is_last && handed.pairs(board) != handed.claim => refusal::WRONG_CLAIM,
                _ => number,
            }
        })
    }),
    ("plan bytes from n on are looked at in a check", |call, lent| {
        let returned = call_library(call, lent);
        match (call, returned, board_of(lent)) {
            (Call::Check { .. }, 0, Some(board)) if lent.bytes.inside()[board.count..].iter().any(|&tip| tip > 63) => {
                19
            }
            _ => returned,
        }
    }),
    ("only the plan that best sharing lays is accepted", |call, lent| {
        on_check(call, lent, |board, handed, number| {
            let mut plan = vec![0; board.count];
            let ours = library::best(&file_of(board), None, &mut plan, &mut [0; 4096]);
            if number == 0 && ours.is_ok() && plan != handed.plan {
                33
            } else {
                number
            }
        })
    }),
    ("the claim is not looked at", |call, lent| on_claim(call, lent, |board, handed| handed.pairs(board))),
    ("a claim below the pairs of the plan is accepted", |call, lent| {
        on_claim(call, lent, |board, handed| handed.claim.max(handed.pairs(board)))
    }),
    ("the claim has 16 bits", |call, lent| {
        on_claim(call, lent, |board, handed| handed.pairs(board) & 0xFFFF_0000 | handed.claim & 0xFFFF)
    }),
    ("the claim has 31 bits", |call, lent| on_claim(call, lent, |_, handed| handed.claim & 0x7FFF_FFFF)),
    ("pairs are counted by lines in a check", |call, lent| {
        on_single(call, lent, |call| matches!(call, Call::Check { .. }))
    }),
    ("refusal 19 names the line", |call, lent| {
        at_refusal(call, lent, &[refusal::FOREIGN_TIP], |lent| {
            let board = board_of(lent).expect("a good file");
            let is_own = |(line, tip): (Line, &mut u8)| *tip < 64 && line.set >> *tip & 1 == 1;
            let foreign = board.lines().zip(lent.bytes.inside()).position(|pair| !is_own(pair));
            lent.answer.inside()[0] = foreign.expect("a foreign tip") as u64;
        })
    }),
    ("an accepted check tells the pairs", |call, lent| match *call {
        Call::Check { claim, .. } => after(call, lent, |number, lent| {
            if number == 0 {
                lent.answer.inside()[1] = claim.into();
            }
        }),
        _ => call_library(call, lent),
    }),
    ("an accepted check changes the plan", |call, lent| match call {
        Call::Check { .. } => at_refusal(call, lent, &[refusal::ACCEPTED], touch),
        _ => call_library(call, lent),
    }),
    ("a refused check changes the plan", |call, lent| {
        at_refusal(call, lent, &[refusal::FOREIGN_TIP, refusal::WRONG_CLAIM, refusal::WRONG_TABLE], touch)
    }),
    ("a check clears the table below its diagonal", |call, lent| match call {
        Call::Check { .. } => at_refusal(call, lent, &[refusal::ACCEPTED, refusal::WRONG_TABLE], |lent| {
            let rack = board_of(lent).expect("a good file").rack;
            let below = (0..rack * rack).filter(|place| place / rack > place % rack);
            below.for_each(|place| lent.table.inside()[place] = 0);
        }),
        _ => call_library(call, lent),
    }),
];

pub(super) const OF_CHECKED_TABLES: &[Mistake] = &[
    ("sums wrap in 32 bits in a check", |call, lent| on_rule(call, lent, |named| named, wrapping)),
    ("sums stop at the largest 32-bit number in a check", |call, lent| on_rule(call, lent, |named| named, stopping)),
    ("tips that no line names are asked for in a check", |call, lent| on_rule(call, lent, |_| u64::MAX, exact)),
    ("the lowest named tip is not asked for in a check", |call, lent| {
        on_rule(call, lent, |named| named & named.wrapping_sub(1), exact)
    }),
    ("tip 63 is not asked for in a check", |call, lent| on_rule(call, lent, |named| named & !(1 << 63), exact)),
    ("the stretch below the tip is forgotten in a check", |call, lent| {
        on_rule(call, lent, |named| named, |entry, pairs, _, above| exact(entry, pairs, 0, above))
    }),
    ("the stretch above the tip is forgotten in a check", |call, lent| {
        on_rule(call, lent, |named| named, |entry, pairs, below, _| exact(entry, pairs, below, 0))
    }),
    ("the pairs on the tip are forgotten in a check", |call, lent| {
        on_rule(call, lent, |named| named, |entry, _, below, above| exact(entry, 0, below, above))
    }),
    ("an entry one too small is accepted", |call, lent| {
        on_rule(
            call,
            lent,
            |named| named,
            |entry, pairs, below, above| exact(entry.saturating_add(1), pairs, below, above),
        )
    }),
    ("an entry must be above what is needed", |call, lent| {
        on_rule(
            call,
            lent,
            |named| named,
            |entry, pairs, below, above| entry == 0 || exact(entry - 1, pairs, below, above),
        )
    }),
    ("entries are compared as numbers with a sign", |call, lent| {
        on_rule(
            call,
            lent,
            |named| named,
            |entry, pairs, below, above| {
                i64::from(entry as i32) >= i64::from(pairs) + i64::from(below as i32) + i64::from(above as i32)
            },
        )
    }),
    ("the claim is not compared with the entry for the whole rack", |call, lent| {
        on_handed_table(call, lent, |board, claim, table| table[board.rack - 1] = claim)
    }),
    ("an entry for the whole rack above the claim is accepted", |call, lent| {
        on_handed_table(call, lent, |board, claim, table| {
            let whole = &mut table[board.rack - 1];
            *whole = claim.min(*whole);
        })
    }),
    ("only the entry for the whole rack is looked at in a check", |call, lent| {
        on_rule(call, lent, |named| named, |_, _, _, _| true)
    }),
    ("the table is taken with rows for columns", |call, lent| {
        on_handed_table(call, lent, |board, _, table| {
            let (rack, given) = (board.rack, table.to_vec());
            (0..rack * rack).for_each(|place| table[place] = given[place % rack * rack + place / rack]);
        })
    }),
    ("places below the diagonal must be 0 in a check", |call, lent| {
        on_check(call, lent, |board, handed, number| {
            let rack = board.rack;
            let mut below = (0..rack * rack).filter(|place| place / rack > place % rack);
            if number == 0 && below.any(|place| handed.table[place] != 0) {
                33
            } else {
                number
            }
        })
    }),
    ("stretches without a named tip must be 0 in a check", |call, lent| {
        on_check(call, lent, |board, handed, number| {
            let (rack, named) = (board.rack, board.named_tips());
            let without = |place: &usize| (place / rack..=place % rack).all(|tip| named >> tip & 1 == 0);
            let mut stretches = (0..rack * rack).filter(|place| place / rack <= place % rack).filter(without);
            if number == 0 && stretches.any(|place| handed.table[place] != 0) {
                33
            } else {
                number
            }
        })
    }),
    ("only the table that best sharing writes is accepted", |call, lent| {
        on_check(call, lent, |board, handed, number| {
            let rack = board.rack;
            let mut table = vec![0; rack * rack];
            let ours = library::best(&file_of(board), None, &mut vec![0; board.count], &mut table);
            let mut stretches = (0..rack * rack).filter(|place| place / rack <= place % rack);
            if number == 0 && ours.is_ok() && stretches.any(|place| handed.table[place] != table[place]) {
                33
            } else {
                number
            }
        })
    }),
];

pub(super) const OF_ORDER_IN_CHECKS: &[Mistake] = &[
    ("20 comes before 19", |call, lent| {
        on_check(call, lent, |board, handed, number| match number {
            refusal::FOREIGN_TIP if handed.pairs(board) != handed.claim => refusal::WRONG_CLAIM,
            _ => number,
        })
    }),
    ("33 comes before 20", |call, lent| {
        on_check(call, lent, |board, handed, number| match number {
            refusal::WRONG_CLAIM if !board.table_shows(handed.claim, &handed.table) => refusal::WRONG_TABLE,
            _ => number,
        })
    }),
    ("33 comes before 19", |call, lent| {
        on_check(call, lent, |board, handed, number| match number {
            refusal::FOREIGN_TIP if !board.table_shows(handed.claim, &handed.table) => refusal::WRONG_TABLE,
            _ => number,
        })
    }),
    ("the table's length is looked at before the plan's in a check", |call, lent| {
        let returned = call_library(call, lent);
        match (call, returned, board_of(lent)) {
            (Call::Check { table, .. }, 4, Some(board)) if *table < board.rack * board.rack => 5,
            _ => returned,
        }
    }),
    ("19 comes before 5", |call, lent| {
        let returned = call_library(call, lent);
        match (call, returned, board_of(lent)) {
            (Call::Check { .. }, 5, Some(board)) if is_foreign(&board, lent.bytes.inside()) => 19,
            _ => returned,
        }
    }),
    ("19 comes before 25", |call, lent| {
        let returned = call_library(call, lent);
        match (call, returned, board_of(lent)) {
            (Call::Check { .. }, 25, Some(board)) if is_foreign(&board, lent.bytes.inside()) => {
                lent.answer.inside()[0] = 0;
                19
            }
            _ => returned,
        }
    }),
    ("25 names no line in a check", |call, lent| match call {
        Call::Check { .. } => at_refusal(call, lent, &[refusal::NO_RUN], |lent| lent.answer.inside()[0] = 0),
        _ => call_library(call, lent),
    }),
    ("a plan of n bytes or a table of m * m places is refused in a check", |call, lent| match (call, board_of(lent)) {
        (Call::Check { .. }, Some(board)) if lent.table.length == board.rack * board.rack => {
            lent.table.length -= 1;
            let returned = call_library(call, lent);
            lent.table.length += 1;
            returned
        }
        _ => call_library(call, lent),
    }),
];

/// Whether some line is on a tip that is not its own.
fn is_foreign(board: &Board, plan: &[u8]) -> bool {
    plan.iter().zip(board.lines()).any(|(&tip, line)| tip > 63 || line.set >> tip & 1 == 0)
}

/// The rule of a table.
fn exact(entry: u32, pairs: u32, below: u32, above: u32) -> bool {
    u64::from(entry) >= u64::from(pairs) + u64::from(below) + u64::from(above)
}

/// A check of a board of runs in buffers that are long enough, with another number, given the one that is right.
fn on_check(call: &Call, lent: &mut Buffers, number: impl FnOnce(&Board, &Handed, u64) -> u64) -> u64 {
    let returned = call_library(call, lent);
    match (*call, returned, board_of(lent)) {
        (
            Call::Check { claim, .. },
            0 | refusal::FOREIGN_TIP | refusal::WRONG_CLAIM | refusal::WRONG_TABLE,
            Some(board),
        ) => {
            let plan = lent.bytes.inside()[..board.count].to_vec();
            let table = lent.table.inside()[..board.rack * board.rack].to_vec();
            number(&board, &Handed { plan, claim, table }, returned)
        }
        _ => returned,
    }
}

/// A check by another rule of the table, at these of the named tips or more.
fn on_rule(call: &Call, lent: &mut Buffers, tips: fn(u64) -> u64, rule: Rule) -> u64 {
    on_check(call, lent, |board, handed, number| match number {
        0 | refusal::WRONG_TABLE if keeps(board, handed, tips(board.named_tips()), rule) => 0,
        0 | refusal::WRONG_TABLE => refusal::WRONG_TABLE,
        _ => number,
    })
}

/// A check with another claim.
fn on_claim(call: &Call, lent: &mut Buffers, edit: fn(&Board, &Handed) -> u32) -> u64 {
    let mut other = *call;
    let returned = on_check(call, lent, |board, handed, number| {
        if let (Call::Check { claim, .. }, refusal::WRONG_CLAIM) = (&mut other, number) {
            *claim = edit(board, handed);
        }
        number
    });
    if other == *call {
        returned
    } else {
        call_library(&other, lent)
    }
}

/// A check of another plan, which is given.
fn on_handed_plan(call: &Call, lent: &mut Buffers, edit: fn(&Board, &mut [u8])) -> u64 {
    match (call, board_of(lent)) {
        (Call::Check { .. }, Some(board)) => {
            let given = lent.bytes.clone();
            edit(&board, lent.bytes.inside());
            let returned = call_library(call, lent);
            lent.bytes = given;
            returned
        }
        _ => call_library(call, lent),
    }
}

/// A check with another table, given board and claim.
fn on_handed_table(call: &Call, lent: &mut Buffers, edit: fn(&Board, u32, &mut [u32])) -> u64 {
    match (*call, board_of(lent)) {
        (Call::Check { claim, table, .. }, Some(board)) if table >= board.rack * board.rack => {
            let given = lent.table.clone();
            edit(&board, claim, &mut lent.table.inside()[..board.rack * board.rack]);
            let returned = call_library(call, lent);
            lent.table = given;
            returned
        }
        _ => call_library(call, lent),
    }
}
