//! Ways in which two boards on one panel can be wrong.

use super::changes::{after, at_refusal};
use super::Mistake;
use crate::boards::{is_counted, single};
use crate::check::{call_library, Buffers, Call, Lent};
use crate::files::{board_in, file_in, file_of, number_of};
use crate::refusal;
use job_file::{Job, Version, AT_RACK};
use second::Board;

pub const OF_MERGING: &[Mistake] = &[
    ("merge puts the lines of the second board first", |call, lent| match (call, boards_of(lent)) {
        (Call::Merge { .. }, Some(_)) => exchanged(call, lent),
        _ => call_library(call, lent),
    }),
    ("racks that differ are merged", |call, lent| match (call, boards_of(lent)) {
        (Call::Merge { .. }, Some([first, second])) => on_second(call, lent, |file| {
            if second.rack < first.rack {
                file[AT_RACK] = first.rack as u8
            }
        }),
        _ => call_library(call, lent),
    }),
    ("racks of boards without lines may differ", |call, lent| match (call, boards_of(lent)) {
        (Call::Merge { .. }, Some([first, second])) if second.count == 0 => {
            on_second(call, lent, |file| file[AT_RACK] = first.rack as u8)
        }
        _ => call_library(call, lent),
    }),
    ("512 lines together are refused", |call, lent| {
        on_merge(call, lent, |panel, number| if number == 0 && panel.lines == 512 { 24 } else { number })
    }),
    ("2,048 placements together are refused", |call, lent| {
        on_merge(call, lent, |panel, number| if number == 0 && panel.placements == 2048 { 30 } else { number })
    }),
    ("24 comes before 17", |call, lent| {
        on_merge(call, lent, |panel, number| if number == 17 && panel.lines > 512 { 24 } else { number })
    }),
    ("30 comes before 17", |call, lent| {
        on_merge(call, lent, |panel, number| if number == 17 && panel.placements > 2048 { 30 } else { number })
    }),
    ("30 comes before 24", |call, lent| {
        on_merge(call, lent, |panel, number| if number == 24 && panel.placements > 2048 { 30 } else { number })
    }),
    ("11 comes before 17, 24 and 30", |call, lent| {
        on_merge(call, lent, |panel, number| {
            if matches!(number, refusal::RACKS_DIFFER | refusal::TOO_MANY_LINES | refusal::TOO_MANY_PLACEMENTS)
                && panel.out < Version::Two.length_of(panel.lines)
            {
                11
            } else {
                number
            }
        })
    }),
    ("11 counts the bytes of both files", |call, lent| {
        on_merge(call, lent, |panel, number| if number == 0 && panel.out < panel.bytes { 11 } else { number })
    }),
    ("30 of a panel names the first line of the second board", |call, lent| {
        let first = boards_of(lent).map(|[first, _]| first.count);
        match (call, first) {
            (Call::Merge { .. }, Some(first)) => {
                at_refusal(call, lent, &[refusal::TOO_MANY_PLACEMENTS], |lent| lent.answer.inside()[0] = first as u64)
            }
            _ => call_library(call, lent),
        }
    }),
    ("a panel is written in the version of the first file", |call, lent| {
        let version = lent.file.inside().get(4).copied();
        on_panel(call, lent, |panel| match version {
            Some(1) => file_of(&single(&panel)),
            _ => file_in(&panel, Version::Two),
        })
    }),
    ("a panel is always written in version 2", |call, lent| {
        on_panel(call, lent, |panel| file_in(&panel, Version::Two))
    }),
    ("the quantities of the second board are forgotten", |call, lent| match (call, boards_of(lent)) {
        (Call::Merge { .. }, Some([_, second])) if is_counted(&second) => {
            on_second(call, lent, |file| *file = file_of(&single(&second)))
        }
        _ => call_library(call, lent),
    }),
    ("the last line of the second board is lost", |call, lent| match (call, boards_of(lent)) {
        (Call::Merge { .. }, Some([_, second])) if second.count > 0 => on_second(call, lent, |file| {
            let lines: Vec<_> = second.lines().take(second.count - 1).collect();
            *file = file_of(&Board::of_lines(second.rack, &lines))
        }),
        _ => call_library(call, lent),
    }),
    ("equal lines of a panel are put together", |call, lent| {
        on_panel(call, lent, |panel| {
            let mut lines: Vec<second::Line> = Vec::new();
            for line in panel.lines() {
                match lines.iter_mut().find(|other| other.set == line.set && other.quantity + line.quantity <= 100) {
                    Some(other) => other.quantity += line.quantity,
                    None => lines.push(line),
                }
            }
            file_of(&Board::of_lines(panel.rack, &lines))
        })
    }),
    ("merge tells the lines in the place of the bytes", |call, lent| match (call, boards_of(lent)) {
        (Call::Merge { .. }, Some([first, second])) => at_refusal(call, lent, &[refusal::ACCEPTED], |lent| {
            lent.answer.inside()[1] = (first.count + second.count) as u64
        }),
        _ => call_library(call, lent),
    }),
    ("a refused merge clears the output", |call, lent| match call {
        Call::Merge { .. } => at_refusal(
            call,
            lent,
            &[refusal::SHORT_OUTPUT, refusal::RACKS_DIFFER, refusal::TOO_MANY_LINES, refusal::TOO_MANY_PLACEMENTS],
            |lent| lent.bytes.inside().iter_mut().for_each(|byte| *byte = 0),
        ),
        _ => call_library(call, lent),
    }),
    ("merge writes to the byte behind the panel", |call, lent| match call {
        Call::Merge { .. } => at_refusal(call, lent, &[refusal::ACCEPTED], |lent| touch_at(lent, |answer| answer[1])),
        _ => call_library(call, lent),
    }),
];

pub const OF_PLANNING_ALONE: &[Mistake] = &[
    ("the plan of the second board begins with the buffer", |call, lent| match (call, boards_of(lent)) {
        (Call::Alone { .. }, Some([first, second])) => at_refusal(call, lent, &[refusal::ACCEPTED], |lent| {
            let plan = &mut lent.bytes.inside()[..first.count + second.count];
            plan.rotate_left(first.count);
        }),
        _ => call_library(call, lent),
    }),
    ("the pairs of the two plans change places", |call, lent| match call {
        Call::Alone { .. } => at_refusal(call, lent, &[refusal::ACCEPTED], |lent| lent.answer.inside().swap(1, 2)),
        _ => call_library(call, lent),
    }),
    ("the pairs of both plans are told together", |call, lent| match call {
        Call::Alone { .. } => at_refusal(call, lent, &[refusal::ACCEPTED], |lent| {
            let answer = lent.answer.inside();
            answer[1] += answer[2];
        }),
        _ => call_library(call, lent),
    }),
    ("boards planned alone must have one rack", |call, lent| match (call, boards_of(lent)) {
        (Call::Alone { .. }, Some([first, second])) if first.rack != second.rack => {
            lent.answer.inside().iter_mut().take(4).for_each(|place| *place = 0);
            17
        }
        _ => call_library(call, lent),
    }),
    ("boards planned alone share their tips", |call, lent| match (call, boards_of(lent)) {
        (Call::Alone { .. }, Some([first, second])) => at_refusal(call, lent, &[refusal::ACCEPTED], |lent| {
            let merged = first.clone().merge(second.clone());
            if merged.number == 0 {
                let plan = &mut lent.bytes.inside()[..merged.panel.count];
                merged.panel.quick(None, plan);
                let (of_first, of_second) = plan.split_at(first.count);
                let pairs = [(&first, of_first), (&second, of_second)].map(|(board, plan)| board.placed(plan));
                let pairs = pairs.map(|placed| u64::from(second::pairs_in(&placed)));
                lent.answer.inside()[1..3].copy_from_slice(&pairs);
            }
        }),
        _ => call_library(call, lent),
    }),
    ("a plan that does for the first board alone is accepted", |call, lent| match (*call, boards_of(lent)) {
        (Call::Alone { plan, .. }, Some([first, _])) if plan >= first.count => {
            let returned = call_library(call, lent);
            if returned == refusal::SHORT_PLAN {
                let (pairs, count) = (first.clone().quick(None, lent.bytes.inside()).value, lent.answer.length);
                lent.answer.inside()[1.min(count - 1)] = pairs.into();
                return 0;
            }
            returned
        }
        _ => call_library(call, lent),
    }),
    ("a refused plan alone has that of the first board", |call, lent| match (*call, boards_of(lent)) {
        (Call::Alone { plan, .. }, Some([first, _])) if plan >= first.count => {
            at_refusal(call, lent, &[refusal::SHORT_PLAN], |lent| {
                first.quick(None, lent.bytes.inside());
            })
        }
        _ => call_library(call, lent),
    }),
    ("planning alone needs a byte more", |call, lent| match (*call, boards_of(lent)) {
        (Call::Alone { plan, answer }, Some([first, second])) if plan == first.count + second.count && answer > 3 => {
            lent.answer.inside()[..4].fill(0);
            4
        }
        _ => call_library(call, lent),
    }),
    ("planning alone writes to the byte behind both plans", |call, lent| match (call, boards_of(lent)) {
        (Call::Alone { .. }, Some([first, second])) => {
            let behind = first.count + second.count;
            at_refusal(call, lent, &[refusal::ACCEPTED], |lent| touch_at(lent, |_| behind as u64))
        }
        _ => call_library(call, lent),
    }),
    ("a board planned alone has the pairs of lines", |call, lent| match (call, boards_of(lent)) {
        (Call::Alone { .. }, Some([_, second])) => at_refusal(call, lent, &[refusal::ACCEPTED], |lent| {
            lent.answer.inside()[2] = single(&second).quick(None, &mut [0; 512]).value.into()
        }),
        _ => call_library(call, lent),
    }),
];

pub const OF_TWO_FILES: &[Mistake] = &[
    ("the second file is refused before the first", |call, lent| match call {
        Call::Merge { .. } | Call::Alone { .. } => {
            let is_bad = |lent: &mut Lent<u8>| number_of(lent.inside()) != 0;
            if is_bad(&mut lent.file) && is_bad(&mut lent.other) {
                exchanged(call, lent)
            } else {
                call_library(call, lent)
            }
        }
        _ => call_library(call, lent),
    }),
    ("the line of a refusal of the second file is always 0", |call, lent| match call {
        Call::Merge { .. } | Call::Alone { .. } => after(call, lent, |number, lent| {
            let bad = number_of(lent.other.inside());
            if number_of(lent.file.inside()) == 0 && bad != 0 && number == u64::from(bad) {
                lent.answer.inside()[0] = 0;
            }
        }),
        _ => call_library(call, lent),
    }),
    ("a line of the second file is counted on from the first", |call, lent| match call {
        Call::Merge { .. } | Call::Alone { .. } => {
            at_refusal(call, lent, &[refusal::EMPTY_LINE, refusal::TIP_OUTSIDE, refusal::ZERO_QUANTITY], |lent| {
                if let Ok(first) = Job::read(lent.file.inside()) {
                    lent.answer.inside()[0] += first.lines.len() as u64;
                }
            })
        }
        _ => call_library(call, lent),
    }),
    ("a second file of version 2 is refused", |call, lent| match call {
        Call::Merge { .. } | Call::Alone { .. } => {
            let is_good = number_of(lent.other.inside()) == 0;
            on_second(call, lent, |file| {
                if is_good && file[4] == 2 {
                    file[4] = 3
                }
            })
        }
        _ => call_library(call, lent),
    }),
    ("bytes behind the second file are accepted", |call, lent| match call {
        Call::Merge { .. } | Call::Alone { .. } => on_second(call, lent, |file| {
            let (mut length, whole) = (file.len(), file.clone());
            while length > 8 && number_of(&whole[..length]) == 10 {
                length -= 1;
            }
            if number_of(&whole[..length]) == 0 {
                file.truncate(length)
            }
        }),
        _ => call_library(call, lent),
    }),
];

/// The boards of two good files.
fn boards_of(lent: &mut Buffers) -> Option<[Board; 2]> {
    let boards = [board_in(lent.file.inside()).ok()?, board_in(lent.other.inside()).ok()?];
    (lent.answer.length > 3).then_some(boards)
}

/// The call with the files in the other order.
fn exchanged(call: &Call, lent: &mut Buffers) -> u64 {
    std::mem::swap(&mut lent.file, &mut lent.other);
    let returned = call_library(call, lent);
    std::mem::swap(&mut lent.file, &mut lent.other);
    returned
}

/// The call with another second file.
fn on_second(call: &Call, lent: &mut Buffers, edit: impl FnOnce(&mut Vec<u8>)) -> u64 {
    let mut file = lent.other.inside().to_vec();
    edit(&mut file);
    let given = std::mem::replace(&mut lent.other, Lent::of(file));
    let returned = call_library(call, lent);
    lent.other = given;
    returned
}

/// What two good files have together, and the bytes of both and of the output.
struct Together {
    lines: usize,
    placements: usize,
    bytes: usize,
    out: usize,
}

/// Merging of good files with another number, given the one that is right; the answer of an accepted one becomes 0.
fn on_merge(call: &Call, lent: &mut Buffers, number: fn(&Together, u64) -> u64) -> u64 {
    let (Call::Merge { out, .. }, Some([first, second])) = (*call, boards_of(lent)) else {
        return call_library(call, lent);
    };
    let before = lent.bytes.clone();
    let returned = call_library(call, lent);
    let lines = first.count + second.count;
    let placements = first.placements().len() + second.placements().len();
    let bytes = lent.file.length + lent.other.length;
    let told = number(&Together { lines, placements, bytes, out }, returned);
    if told != returned {
        lent.bytes = before;
        lent.answer.inside()[..4].fill(0);
    }
    told
}

/// Merging with another file written, where there is room for it, given the panel.
fn on_panel(call: &Call, lent: &mut Buffers, edit: impl FnOnce(Board) -> Vec<u8>) -> u64 {
    match (call, boards_of(lent)) {
        (Call::Merge { .. }, Some([first, second])) => at_refusal(call, lent, &[refusal::ACCEPTED], |lent| {
            let file = edit(first.merge(second).panel);
            if file.len() <= lent.bytes.length {
                lent.bytes.inside()[..file.len()].copy_from_slice(&file);
                lent.answer.inside()[1] = file.len() as u64;
            }
        }),
        _ => call_library(call, lent),
    }
}

/// Changes the byte of the output at this place, where there is one, given the answer.
fn touch_at(lent: &mut Buffers, place: impl FnOnce(&[u64]) -> u64) {
    let place = place(lent.answer.inside()) as usize;
    if let Some(byte) = lent.bytes.inside().get_mut(place) {
        *byte ^= 1;
    }
}
