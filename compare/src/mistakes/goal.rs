//! Mistakes in striking by a goal of pairs.

use super::changes::{at_refusal, board_of, lowest, on_accepted, on_single, refusal};
use super::Mistake;
use crate::boards::is_unbroken;
use crate::check::{call_library, Buffers, Call};
use crate::files::{board_in, file_in, file_of, line_in, put_line, version_of};
use crate::refusal;
use job_file::Version;
use second::interface::ANSWER_PLACES;
use second::{pairs_in, Board, Line};

pub(super) const OF_GOALS: &[Mistake] = &[
    ("a goal of as many pairs as a best plan has is refused", |call, lent| on_goal_number(call, lent, |goal| goal + 1)),
    ("a goal one pair too high is met", |call, lent| on_goal_number(call, lent, |goal| goal.saturating_sub(1))),
    ("the goal has 16 bits", |call, lent| on_goal_number(call, lent, |goal| goal & 0xFFFF)),
    ("the goal has a sign", |call, lent| on_goal_number(call, lent, |goal| if goal >> 31 == 1 { 0 } else { goal })),
    ("a goal strikes nothing", |call, lent| on_struck(call, lent, |board, _, line| board.sets[line])),
    ("only the tips of one best plan stay", |call, lent| {
        on_struck(call, lent, |board, kept, line| {
            let plan = best_plan(board);
            if pairs_in(&board.placed(&plan)) == goal_of(call) {
                1 << plan[line]
            } else {
                kept
            }
        })
    }),
    ("only lines that can move alone keep more than one best plan's tip", |call, lent| {
        on_struck(call, lent, |board, _, line| {
            let plan = best_plan(board);
            let pairs_on = |tip: u8| {
                let mut plan = plan.clone();
                plan[line] = tip;
                pairs_in(&board.placed(&plan))
            };
            let own = (0..64).filter(|tip| board.sets[line] >> tip & 1 == 1);
            own.filter(|&tip| pairs_on(tip) >= goal_of(call)).fold(0, |set, tip| set | 1 << tip)
        })
    }),
    ("a goal counts lines and not placements", |call, lent| {
        on_single(call, lent, |call| matches!(call, Call::Goal { .. }))
    }),
    ("gaps are filled", |call, lent| {
        on_struck(call, lent, |board, kept, line| {
            let between = u64::MAX << lowest(kept) & u64::MAX >> kept.leading_zeros();
            board.sets[line] & between
        })
    }),
    ("lines with equal sets keep equal tips", |call, lent| {
        on_goal(call, lent, |board, lent| {
            let (form, out) = (version_of(board), lent.bytes.inside());
            for line in 1..board.count {
                if let Some(equal) = (0..line).find(|&other| board.sets[other] == board.sets[line]) {
                    let set = line_in(form, out, equal).set;
                    put_line(form, out, line, Line { set, quantity: board.quantities[line] });
                }
            }
        })
    }),
    ("tip 63 is never struck by a goal", |call, lent| {
        on_struck(call, lent, |board, kept, line| kept | board.sets[line] & 1 << 63)
    }),
    ("line 511 keeps all its tips with a goal", |call, lent| {
        on_struck(call, lent, |board, kept, line| if line == 511 { board.sets[line] } else { kept })
    }),
    ("a line with a tip that no line names between its own is refused by a goal", |call, lent| {
        let returned = call_library(call, lent);
        let broken = board_of(lent).and_then(|board| board.lines().position(|line| !is_unbroken(line.set)));
        match (call, returned, broken) {
            (Call::Goal { .. }, 34, Some(line)) => {
                lent.answer.inside()[0] = line as u64;
                25
            }
            _ => returned,
        }
    }),
    ("with a goal of 0 no line is looked at", |call, lent| {
        let returned = call_library(call, lent);
        match (*call, returned, board_of(lent)) {
            (Call::Goal { goal: 0, out, .. }, 25, Some(board)) if out >= file_of(&board).len() => {
                let file = file_of(&board);
                lent.bytes.inside()[..file.len()].copy_from_slice(&file);
                lent.answer.inside()[..2].copy_from_slice(&[0, file.len() as u64]);
                0
            }
            _ => returned,
        }
    }),
    ("refusal 25 of a goal is always at line 0", |call, lent| {
        if let Call::Goal { .. } = call {
            at_refusal(call, lent, &[refusal::NO_RUN], |lent| lent.answer.inside()[0] = 0)
        } else {
            call_library(call, lent)
        }
    }),
    ("refusal 34 tells the number of lines", |call, lent| {
        let count = board_of(lent).map_or(0, |board| board.count as u64);
        at_refusal(call, lent, &[refusal::GOAL_MISSED], |lent| lent.answer.inside()[0] = count)
    }),
    ("refusal 34 tells the pairs of a best plan", |call, lent| {
        let pairs = board_of(lent).map_or(0, |board| pairs_in(&board.placed(&best_plan(&board))));
        at_refusal(call, lent, &[refusal::GOAL_MISSED], |lent| lent.answer.inside()[1] = pairs.into())
    }),
    ("refusal 34 writes the output", |call, lent| {
        at_refusal(call, lent, &[refusal::GOAL_MISSED], |lent| {
            let file = lent.file.inside().to_vec();
            if lent.bytes.length >= file.len() {
                lent.bytes.inside()[..file.len()].copy_from_slice(&file);
            }
        })
    }),
    ("a goal that is missed is told after a short output", |call, lent| {
        let returned = call_library(call, lent);
        let written = board_of(lent).map_or(0, |board| file_of(&board).len());
        if refusal(call, returned) == 34 && lent.bytes.length < written {
            return 11;
        }
        returned
    }),
    ("a line that is no run is told after a short output", |call, lent| {
        let returned = call_library(call, lent);
        let written = board_of(lent).map_or(0, |board| file_of(&board).len());
        if let (Call::Goal { .. }, refusal::NO_RUN) = (call, returned) {
            if lent.bytes.length < written {
                lent.answer.inside()[0] = 0;
                return 11;
            }
        }
        returned
    }),
    ("a goal that is missed is told before a line that is no run", |call, lent| {
        let returned = call_library(call, lent);
        match (call, returned, board_of(lent)) {
            (Call::Goal { goal, .. }, 25, Some(board)) if *goal as usize > pairs_at_most(&board) => {
                lent.answer.inside()[0] = 0;
                34
            }
            _ => returned,
        }
    }),
    ("the bytes of a goal's file are told in the third place", |call, lent| {
        on_goal(call, lent, |_, lent| lent.answer.inside()[1..3].reverse())
    }),
    ("one byte past the file of a goal is written", |call, lent| {
        on_goal(call, lent, |_, lent| {
            let length = lent.answer.inside()[1] as usize;
            if let Some(byte) = lent.bytes.inside().get_mut(length) {
                *byte ^= 1;
            }
        })
    }),
    ("a goal always writes version 2", |call, lent| {
        on_goal(call, lent, |_, lent| {
            let length = lent.answer.inside()[1] as usize;
            let kept = board_in(&lent.bytes.inside()[..length]).expect("a good file");
            let file = file_in(&kept, Version::Two);
            if file.len() <= lent.bytes.length {
                lent.bytes.inside()[..file.len()].copy_from_slice(&file);
                lent.answer.inside()[1] = file.len() as u64;
            }
        })
    }),
    ("a goal writes quantities of 1", |call, lent| {
        on_goal(call, lent, |board, lent| {
            let (form, out) = (version_of(board), lent.bytes.inside());
            if form == Version::Two {
                for line in 0..board.count {
                    let set = line_in(form, out, line).set;
                    put_line(form, out, line, Line { set, quantity: 1 });
                }
            }
        })
    }),
];

/// The goal of a call.
fn goal_of(call: &Call) -> u32 {
    match *call {
        Call::Goal { goal, .. } => goal,
        _ => 0,
    }
}

/// More pairs than any plan of the board has, or as many.
fn pairs_at_most(board: &Board) -> usize {
    let placements = board.placements().len();
    placements * placements.saturating_sub(1) / 2
}

/// A best plan of the board, where it has one.
fn best_plan(board: &Board) -> Vec<u8> {
    let mut plan = vec![0; board.count];
    board.clone().best(None, &mut plan, &mut [0; 4096]);
    plan
}

/// A call with another goal.
fn on_goal_number(call: &Call, lent: &mut Buffers, edit: fn(u32) -> u32) -> u64 {
    match *call {
        Call::Goal { goal, out, answer } if goal < u32::MAX => {
            call_library(&Call::Goal { goal: edit(goal), out, answer }, lent)
        }
        _ => call_library(call, lent),
    }
}

fn on_goal(call: &Call, lent: &mut Buffers, change: impl FnOnce(&Board, &mut Buffers)) -> u64 {
    on_accepted(call, lent, Call::Goal { goal: 0, out: 0, answer: ANSWER_PLACES }.column(), change)
}

/// A goal with other sets in the output, given the board, the kept set and the line.
fn on_struck(call: &Call, lent: &mut Buffers, edit: impl Fn(&Board, u64, usize) -> u64) -> u64 {
    on_goal(call, lent, |board, lent| {
        let (form, out) = (version_of(board), lent.bytes.inside());
        for line in 0..board.count {
            let Line { set, quantity } = line_in(form, out, line);
            put_line(form, out, line, Line { set: edit(board, set, line), quantity });
        }
    })
}
