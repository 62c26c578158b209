//! Mistakes in plans along the list.

use super::changes::{
    at_refusal, board_of, lowest, mirrored, mounted_tip, on_accepted, on_head, on_single, refusal, touch,
};
use super::Mistake;
use crate::check::{call_library, Buffers, Call};
use crate::files::file_of;
use crate::refusal;
use job_file::AT_RACK;
use second::interface::{ANSWER_PLACES, NO_TIP};
use second::{pairs_in, Board, Line};

pub(super) const OF_ALONG: &[Mistake] = &[
    ("a change before the first line is not counted along the list", |call, lent| {
        on_along(call, lent, |board, lent| {
            lent.answer.inside()[1] -= u64::from(changes_before(call, board));
        })
    }),
    ("the first line is a change along the list without a mounted tip", |call, lent| {
        on_along(call, lent, |board, lent| {
            lent.answer.inside()[1] += u64::from(mounted_tip(call).is_none() && board.count > 0);
        })
    }),
    ("without lines a mounted tip is a change along the list", |call, lent| {
        on_along(call, lent, |board, lent| {
            lent.answer.inside()[1] += u64::from(mounted_tip(call).is_some() && board.count == 0);
        })
    }),
    ("segments are counted and not changes along the list", |call, lent| {
        on_along(call, lent, |board, lent| {
            let begins_changed = changes_before(call, board);
            lent.answer.inside()[1] += u64::from(board.count > 0 && !begins_changed);
        })
    }),
    ("a segment is on its highest tip", |call, lent| match (call, board_of(lent)) {
        (Call::Along { .. }, Some(board)) => mirrored(call, lent, &board),
        _ => call_library(call, lent),
    }),
    ("each line is on the lowest tip that it shares with those before it in its segment", |call, lent| {
        on_along_plan(call, lent, |board, mounted, plan| {
            let mut shared = mounted.map_or(u64::MAX, |tip| 1 << tip);
            for (tip, line) in plan.iter_mut().zip(board.lines()) {
                shared = if shared & line.set == 0 { line.set } else { shared & line.set };
                *tip = lowest(shared);
            }
        })
    }),
    ("a segment takes the lowest tip of its first line", |call, lent| {
        on_along_plan(call, lent, |board, mounted, plan| {
            let mut on_head = mounted;
            for (tip, line) in plan.iter_mut().zip(board.lines()) {
                let chosen = on_head.filter(|&tip| has(line, tip)).unwrap_or(lowest(line.set).into());
                on_head = Some(chosen);
                *tip = chosen as u8;
            }
        })
    }),
    ("a segment takes the tip that most placements from it on allow", |call, lent| {
        on_along_plan(call, lent, |board, mounted, plan| {
            let mut on_head = mounted;
            for (at, line) in board.lines().enumerate() {
                let allow = |tip: usize| board.lines().skip(at).filter(|line| has(*line, tip)).count();
                let busiest = || (0..board.rack).rev().filter(|&tip| has(line, tip)).max_by_key(|&tip| allow(tip));
                let chosen = on_head.filter(|&tip| has(line, tip)).or_else(busiest).expect("a tip");
                on_head = Some(chosen);
                plan[at] = chosen as u8;
            }
        })
    }),
    ("segments are made from the last line to the first", |call, lent| {
        on_along_plan(call, lent, |board, mounted, plan| {
            if mounted.is_none() {
                let lines: Vec<Line> = board.lines().rev().collect();
                library::along(&file_of(&Board::of_lines(board.rack, &lines)), None, plan).expect("a good file");
                plan.reverse();
            }
        })
    }),
    ("the mounted tip is left where another serves more lines along the list", |call, lent| {
        on_along_plan(call, lent, |board, _, plan| {
            library::along(&file_of(board), None, plan).expect("a good file");
        })
    }),
    ("the mounted tip is not looked at along the list", |call, lent| match (*call, board_of(lent)) {
        (Call::Along { mounted, plan, answer }, Some(board)) if mounted < board.rack => {
            call_library(&Call::Along { mounted: NO_TIP, plan, answer }, lent)
        }
        _ => call_library(call, lent),
    }),
    ("a mounted tip that no line names is taken for none along the list", |call, lent| match (*call, board_of(lent)) {
        (Call::Along { mounted, plan, answer }, Some(board))
            if mounted < board.rack && board.named_tips() >> mounted & 1 == 0 =>
        {
            call_library(&Call::Along { mounted: NO_TIP, plan, answer }, lent)
        }
        _ => call_library(call, lent),
    }),
    ("the last line is on its lowest tip along the list", |call, lent| {
        on_along_plan(call, lent, |board, _, plan| {
            if let (Some(tip), Some(line)) = (plan.last_mut(), board.lines().next_back()) {
                *tip = lowest(line.set);
            }
        })
    }),
    ("tips from 32 on end a segment", |call, lent| {
        on_along_plan(call, lent, |board, _, plan| {
            let mut before = None;
            for (tip, line) in plan.iter_mut().zip(board.lines()) {
                if *tip >= 32 && before == Some(*tip) {
                    *tip = lowest(line.set);
                }
                before = Some(*tip);
            }
        })
    }),
    ("changes have 8 bits along the list", |call, lent| {
        on_along(call, lent, |_, lent| lent.answer.inside()[1] &= 0xFF)
    }),
    ("pairs have 16 bits along the list", |call, lent| {
        on_along(call, lent, |_, lent| lent.answer.inside()[2] &= 0xFFFF)
    }),
    ("pairs are counted by lines along the list", |call, lent| {
        on_single(call, lent, |call| matches!(call, Call::Along { .. }))
    }),
    ("pairs are counted in each segment alone along the list", |call, lent| {
        on_along(call, lent, |board, lent| {
            let placed = board.placed(&lent.bytes.inside()[..board.count]);
            let segments = placed.chunk_by(|one, other| one == other);
            lent.answer.inside()[2] = segments.map(|segment| u64::from(pairs_in(segment))).sum();
        })
    }),
    ("changes and pairs are returned in the other order", |call, lent| {
        on_along(call, lent, |_, lent| lent.answer.inside().swap(1, 2))
    }),
    ("the last place of the answer has the number of lines along the list", |call, lent| {
        on_along(call, lent, |board, lent| lent.answer.inside()[3] = board.count as u64)
    }),
    ("a plan along the list is refused where a line is no run", |call, lent| match (call, board_of(lent)) {
        (Call::Along { .. }, Some(board)) => {
            let given = lent.clone();
            let returned = call_library(call, lent);
            let number = board.clone().best(None, &mut [0; 512], &mut [0; 4096]).number;
            if returned != 0 || board.count > 48 || number == 0 {
                return returned;
            }
            *lent = given;
            lent.answer.inside()[..ANSWER_PLACES].fill(0);
            number.into()
        }
        _ => call_library(call, lent),
    }),
    ("a rack of 64 is planned along the list as one of 63", |call, lent| match call {
        Call::Along { .. } => on_head(call, lent, |head| {
            if head.rack == 64 {
                head.bytes[AT_RACK] = 63;
            }
        }),
        _ => call_library(call, lent),
    }),
    ("a plan buffer of n bytes is refused along the list", |call, lent| match (call, board_of(lent)) {
        (Call::Along { .. }, Some(board)) if board.count > 0 && lent.bytes.length == board.count => {
            lent.bytes.length -= 1;
            let returned = call_library(call, lent);
            lent.bytes.length += 1;
            returned
        }
        _ => call_library(call, lent),
    }),
    ("refusal 16 comes after 4 along the list", |call, lent| {
        let returned = call_library(call, lent);
        match (call, board_of(lent)) {
            (Call::Along { plan, .. }, Some(board)) if returned == refusal::MOUNTED_OUTSIDE && *plan < board.count => {
                refusal::SHORT_PLAN
            }
            _ => returned,
        }
    }),
    ("refusal 4 tells the number of lines along the list", |call, lent| {
        let count = board_of(lent).map_or(0, |board| board.count as u64);
        match call {
            Call::Along { .. } => {
                at_refusal(call, lent, &[refusal::SHORT_PLAN], |lent| lent.answer.inside()[0] = count)
            }
            _ => call_library(call, lent),
        }
    }),
    ("a refused plan along the list is begun", |call, lent| {
        let returned = call_library(call, lent);
        if matches!(call, Call::Along { .. })
            && matches!(refusal(call, returned), refusal::SHORT_PLAN | refusal::MOUNTED_OUTSIDE)
        {
            touch(lent);
        }
        returned
    }),
    ("plan bytes from n on are cleared along the list", |call, lent| {
        on_along(call, lent, |board, lent| lent.bytes.inside()[board.count..].fill(0))
    }),
];

fn has(line: Line, tip: usize) -> bool {
    line.set >> tip & 1 == 1
}

/// Whether the mounted tip is changed before the first line.
fn changes_before(call: &Call, board: &Board) -> bool {
    mounted_tip(call).zip(board.lines().next()).is_some_and(|(tip, first)| !has(first, tip))
}

fn on_along(call: &Call, lent: &mut Buffers, change: impl FnOnce(&Board, &mut Buffers)) -> u64 {
    let column = Call::Along { mounted: NO_TIP, plan: 0, answer: ANSWER_PLACES }.column();
    on_accepted(call, lent, column, change)
}

/// Another plan along the list, with its own changes and pairs.
fn on_along_plan(call: &Call, lent: &mut Buffers, change: fn(&Board, Option<usize>, &mut [u8])) -> u64 {
    let mounted = mounted_tip(call);
    on_along(call, lent, |board, lent| {
        let plan = &mut lent.bytes.inside()[..board.count];
        change(board, mounted, plan);
        let changes = crate::run::changes_in(plan, mounted);
        let pairs = pairs_in(&board.placed(plan));
        lent.answer.inside()[1..3].copy_from_slice(&[changes as u64, pairs.into()]);
    })
}
