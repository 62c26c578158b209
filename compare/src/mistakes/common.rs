//! Mistakes in the tips that most lines share, and in keeping within k.

use super::changes::{at_refusal, board_of, lowest, on_common, on_keep, on_written, placements_with, refusal, touch};
use super::Mistake;
use crate::boards::single;
use crate::check::{call_library, Buffers, Call};
use crate::files::{file_in, file_of, line_in, put_line, version_of};
use crate::refusal;
use job_file::LONGEST_FILE;
use second::{Board, Line};

pub(super) const OF_COMMON: &[Mistake] = &[
    ("all tips are common without lines", |call, lent| {
        on_common(call, lent, |board, answer| {
            if board.count == 0 {
                answer[3] = u64::MAX >> (64 - board.rack)
            }
        })
    }),
    ("only the lowest common tip is given", |call, lent| {
        on_common(call, lent, |_, answer| answer[3] &= answer[3].wrapping_neg())
    }),
    ("tip 63 is never common", |call, lent| on_common(call, lent, |_, answer| answer[3] &= !(1 << 63))),
    ("the set of common tips has 32 bits", |call, lent| on_common(call, lent, |_, answer| answer[3] &= 0xFFFF_FFFF)),
    ("off is given as top", |call, lent| on_common(call, lent, |_, answer| answer[2] = answer[1])),
];

pub(super) const OF_KEEP: &[Mistake] = &[
    ("k has 8 bits", |call, lent| on_k(call, lent, |k| k & 0xFF)),
    ("k has 15 bits", |call, lent| on_k(call, lent, |k| k & 0x7FFF)),
    ("k is taken for the number of lines where it is above", |call, lent| {
        let most = board_of(lent).map_or(u16::MAX, |board| board.count as u16);
        on_k(call, lent, |k| k.min(most))
    }),
    ("refusal 26 carries margin 0", |call, lent| {
        at_refusal(call, lent, &[refusal::NO_PLAN], |lent| lent.answer.inside()[1] = 0)
    }),
    ("the board is handed back as it was", |call, lent| on_kept(call, lent, |_, _, given| given)),
    ("tips are struck at margin 1 too", |call, lent| match *call {
        Call::Keep { k, .. } if k > 0 => {
            let returned = call_library(call, lent);
            if refusal(call, returned) == 0 && lent.answer.inside()[1] == 1 {
                let length = lent.answer.inside()[2] as usize;
                let mut out = lent.bytes.inside()[..length].to_vec();
                if library::keep(lent.file.inside(), k - 1, &mut out).is_ok() {
                    lent.bytes.inside()[..length].copy_from_slice(&out);
                }
            }
            returned
        }
        _ => call_library(call, lent),
    }),
    ("tips outside the common ones are struck from every line that has one of them", |call, lent| {
        on_kept_at_0(call, lent, |common, given, kept| if given & common == 0 { kept } else { given & common })
    }),
    ("lines keep only the lowest common tip", |call, lent| {
        on_kept_at_0(call, lent, |common, _, kept| if kept == common { 1 << lowest(common) } else { kept })
    }),
    ("line 511 keeps all its tips", |call, lent| {
        on_kept(call, lent, |line, kept, given| if line == 511 { given } else { kept })
    }),
    ("tip 63 is never struck", |call, lent| on_kept(call, lent, |_, kept, given| kept | given & 1 << 63)),
    ("the output is looked at before the margin", |call, lent| {
        let returned = call_library(call, lent);
        let written = board_of(lent).map_or(0, |board| file_of(&board).len());
        if refusal(call, returned) == 26 && lent.bytes.length < written {
            lent.answer.inside()[1] = 0;
            return 11;
        }
        returned
    }),
    ("refusal 11 carries the margin", |call, lent| match *call {
        Call::Keep { k, .. } => at_refusal(call, lent, &[refusal::SHORT_OUTPUT], |lent| {
            let kept = library::keep(lent.file.inside(), k, &mut [0; LONGEST_FILE]);
            lent.answer.inside()[1] = kept.expect("the bound is met").margin as u64;
        }),
        _ => call_library(call, lent),
    }),
    ("refusal 11 writes a byte of the output", |call, lent| at_refusal(call, lent, &[refusal::SHORT_OUTPUT], touch)),
    ("refusal 26 writes the output", |call, lent| {
        at_refusal(call, lent, &[refusal::NO_PLAN], |lent| {
            let file = lent.file.inside().to_vec();
            if lent.bytes.length >= file.len() {
                lent.bytes.inside()[..file.len()].copy_from_slice(&file);
            }
        })
    }),
    ("one byte past the file is written", |call, lent| {
        on_keep(call, lent, |_, lent| {
            let length = lent.answer.inside()[2] as usize;
            if let Some(byte) = lent.bytes.inside().get_mut(length) {
                *byte ^= 1;
            }
        })
    }),
    ("the number of bytes is given as the number of lines", |call, lent| {
        on_keep(call, lent, |board, lent| lent.answer.inside()[2] = board.count as u64)
    }),
];

pub(super) const OF_KEEPING_PLACEMENTS: &[Mistake] = &[
    ("the margin counts lines", |call, lent| match *call {
        Call::Keep { k, .. } => on_keep(call, lent, |board, lent| {
            let common = single(board).common_tip().value;
            lent.answer.inside()[1] = (i64::from(k) - common.off as i64) as u64;
        }),
        _ => call_library(call, lent),
    }),
    ("nothing is struck above margin 0", |call, lent| on_kept_above_0(call, lent, |given, _, _, _| given.set)),
    ("above margin 0 tips are struck whatever the quantity", |call, lent| {
        on_kept_above_0(
            call,
            lent,
            |given, _, _, reaching| {
                if given.set & reaching == reaching {
                    reaching
                } else {
                    given.set
                }
            },
        )
    }),
    ("a line with as many placements as the margin loses tips too", |call, lent| {
        on_kept_above_0(call, lent, |given, kept, margin, reaching| {
            if margin == i64::from(given.quantity) && given.set & reaching == reaching {
                reaching
            } else {
                kept
            }
        })
    }),
    ("a line with one placement more than the margin loses none", |call, lent| {
        on_kept_above_0(
            call,
            lent,
            |given, kept, margin, _| {
                if margin + 1 == i64::from(given.quantity) {
                    given.set
                } else {
                    kept
                }
            },
        )
    }),
    ("above margin 0 only common tips stay", |call, lent| {
        let common = board_of(lent).map_or(0, |board| board.common_tip().value.tips);
        on_kept(call, lent, |_, kept, given| if kept == given { kept } else { kept & common })
    }),
    ("above margin 0 a line with one of the tips that reach keeps only those", |call, lent| {
        on_kept_above_0(call, lent, |given, kept, margin, reaching| {
            if margin < i64::from(given.quantity) && given.set & reaching != 0 {
                given.set & reaching
            } else {
                kept
            }
        })
    }),
    ("quantities are written as 1", |call, lent| {
        on_written(call, lent, |kept| {
            let lines: Vec<Line> = kept.lines().map(|Line { set, .. }| Line { set, quantity: 1 }).collect();
            file_in(&Board::of_lines(kept.rack, &lines), version_of(&kept))
        })
    }),
];

/// Keep with another bound.
fn on_k(call: &Call, lent: &mut Buffers, edit: impl Fn(u16) -> u16) -> u64 {
    match *call {
        Call::Keep { k, out, answer } => call_library(&Call::Keep { k: edit(k), out, answer }, lent),
        _ => call_library(call, lent),
    }
}

/// Keep with other sets in the output, given line, kept set and given set.
fn on_kept(call: &Call, lent: &mut Buffers, edit: impl Fn(usize, u64, u64) -> u64) -> u64 {
    on_keep(call, lent, |board, lent| {
        let out = lent.bytes.inside();
        let form = version_of(board);
        for (line, given) in board.lines().enumerate() {
            let Line { set, quantity } = line_in(form, out, line);
            put_line(form, out, line, Line { set: edit(line, set, given.set), quantity });
        }
    })
}

/// Keep with other sets in the output above margin 0, given line, kept set, margin and the tips that reach within k.
fn on_kept_above_0(call: &Call, lent: &mut Buffers, edit: fn(Line, u64, i64, u64) -> u64) -> u64 {
    let Call::Keep { k, .. } = *call else {
        return call_library(call, lent);
    };
    on_keep(call, lent, |board, lent| {
        let margin = lent.answer.inside()[1] as i64;
        if margin > 0 {
            let needed = board.placements().len().saturating_sub(k.into()).max(1);
            let reach = (0..board.rack).filter(|&tip| placements_with(board, tip) >= needed);
            let reaching = reach.fold(0, |set, tip| set | 1 << tip);
            let (form, out) = (version_of(board), lent.bytes.inside());
            for (line, given) in board.lines().enumerate() {
                let kept = line_in(form, out, line).set;
                put_line(form, out, line, Line { set: edit(given, kept, margin, reaching), ..given });
            }
        }
    })
}

/// Keep with other sets in the output at margin 0, given common tips, given set and kept set.
fn on_kept_at_0(call: &Call, lent: &mut Buffers, edit: fn(u64, u64, u64) -> u64) -> u64 {
    match (*call, board_of(lent).map(|board| board.common_tip().value)) {
        (Call::Keep { k, .. }, Some(common)) if usize::from(k) == common.off => {
            on_kept(call, lent, |_, kept, given| edit(common.tips, given, kept))
        }
        _ => call_library(call, lent),
    }
}
