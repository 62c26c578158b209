//! Mistakes in reading files of both versions.

use super::changes::{at_refusal, board_of, head_of, on_file, on_head, on_lines, on_sets, on_written, refusal, Head};
use super::Mistake;
use crate::boards::single;
use crate::check::{call_library, Buffers, Call};
use crate::damage::{first_to_pass, quantities_in};
use crate::files::{file_in, file_of, line_in, version_of};
use crate::refusal;
use job_file::{Version, AT_RACK, AT_VERSION, HEAD, LONGEST_FILE, MARK, MOST_PLACEMENTS};
use second::interface::ANSWER_PLACES;
use second::Line;

pub(super) const OF_READING: &[Mistake] = &[
    ("a file of 7 bytes is not refused with 6", |call, lent| {
        on_file(call, lent, |file| {
            if file.len() == 7 {
                file.push(0)
            }
        })
    }),
    ("only the first two bytes of the mark are looked at", |call, lent| {
        on_head(call, lent, |head| head.bytes[2] = b'P')
    }),
    ("only the low byte of the version is looked at", |call, lent| on_head(call, lent, |head| head.bytes[3] = 0)),
    ("a rack of 64 tips is refused", |call, lent| {
        on_head(call, lent, |head| {
            if head.rack == 64 {
                head.bytes[AT_RACK] = 0
            }
        })
    }),
    ("512 lines are refused", |call, lent| {
        on_head(call, lent, |head| {
            if head.count == 512 {
                head.put_count(513)
            }
        })
    }),
    ("bytes after the last line are accepted", |call, lent| {
        on_file(call, lent, |file| {
            if let Some(head) = head_of(file) {
                let length = head.form().length_of(head.count);
                file.truncate(length);
            }
        })
    }),
    ("the version is looked at before the mark", |call, lent| {
        on_head(call, lent, |head| {
            if !matches!(head.version, 1 | 2) {
                head.bytes[..3].copy_from_slice(&MARK)
            }
        })
    }),
    ("the rack size is looked at before the version", |call, lent| {
        on_head(call, lent, |head| {
            if !(1..=64).contains(&head.rack) {
                head.bytes[AT_VERSION].copy_from_slice(&[0, 1])
            }
        })
    }),
    ("the number of lines is looked at before the rack size", |call, lent| {
        on_head(call, lent, |head| {
            if head.count > 512 {
                head.bytes[AT_RACK] = 1
            }
        })
    }),
    ("the length is looked at before the number of lines", |call, lent| {
        on_head(call, lent, |head| {
            if head.count > 512 {
                head.put_count(if head.bytes.len() == HEAD { 1 } else { 0 })
            }
        })
    }),
    ("sets are read little-endian", |call, lent| on_sets(call, lent, |_, set| set.swap_bytes())),
    ("the last bad line is named", |call, lent| {
        let returned = call_library(call, lent);
        if let (refusal::EMPTY_LINE | refusal::TIP_OUTSIDE | refusal::ZERO_QUANTITY, Some(head)) =
            (refusal(call, returned), head_of(lent.file.inside()))
        {
            let is_bad = |&line: &usize| {
                let Line { set, quantity } = line_in(head.form(), head.bytes, line);
                set == 0 || head.rack < 64 && set >> head.rack != 0 || quantity == 0
            };
            // Of two files the other one may be the bad one.
            if let Some(last) = (0..head.count).rev().find(is_bad) {
                lent.answer.inside()[0] = last as u64;
            }
        }
        returned
    }),
    ("empty lines are looked for before tips outside the rack", |call, lent| {
        let file = lent.file.inside();
        let has_empty = head_of(file)
            .filter(Head::fits)
            .is_some_and(|head| (0..head.count).any(|line| line_in(head.form(), head.bytes, line).set == 0));
        on_sets(call, lent, |_, set| if has_empty && set != 0 { 1 } else { set })
    }),
    ("tips outside the rack are accepted", |call, lent| {
        let rack = head_of(lent.file.inside()).map_or(64, |head| head.rack);
        on_sets(call, lent, |_, set| if set != 0 && rack < 64 { (set & ((1 << rack) - 1)).max(1) } else { set })
    }),
    ("the line of a refusal is always 0", |call, lent| {
        at_refusal(call, lent, &[refusal::EMPTY_LINE, refusal::TIP_OUTSIDE], |lent| lent.answer.inside()[0] = 0)
    }),
    ("the line of a refusal has 8 bits", |call, lent| {
        at_refusal(call, lent, &[refusal::EMPTY_LINE, refusal::TIP_OUTSIDE], |lent| lent.answer.inside()[0] &= 0xFF)
    }),
];

pub(super) const OF_READING_QUANTITIES: &[Mistake] = &[
    ("a quantity of 0 is taken for 1", |call, lent| on_quantities(call, lent, |quantity| quantity.max(1))),
    ("quantities have 7 bits", |call, lent| on_quantities(call, lent, |quantity| quantity & 0x7F)),
    ("a quantity stands before its set", |call, lent| {
        on_file(call, lent, |file| {
            if let Some(head) = head_of(file).filter(|head| head.fits() && head.version == 2) {
                head.bytes[HEAD..].chunks_mut(Version::Two.line()).for_each(|line| line.rotate_right(1));
            }
        })
    }),
    ("each line has the quantity of the next", |call, lent| {
        let quantities = quantities_in(lent.file.inside());
        on_lines(call, lent, |line, Line { set, quantity }| Line {
            set,
            quantity: quantities.get(line + 1).copied().unwrap_or(quantity),
        })
    }),
    ("a quantity is looked at before the set of its line", |call, lent| {
        let returned = call_library(call, lent);
        if let (refusal::EMPTY_LINE | refusal::TIP_OUTSIDE, Some(head)) =
            (refusal(call, returned), head_of(lent.file.inside()))
        {
            let bad = line_in(head.form(), head.bytes, lent.answer.inside()[0] as usize);
            if bad.quantity == 0 {
                return 15;
            }
        }
        returned
    }),
    ("every set is looked at before the quantities", |call, lent| {
        let file = lent.file.inside();
        let bad_set = head_of(file).filter(Head::fits).is_some_and(|head| {
            let sets = (0..head.count).map(|line| line_in(head.form(), head.bytes, line).set);
            sets.into_iter().any(|set| set == 0 || head.rack < 64 && set >> head.rack != 0)
        });
        on_lines(call, lent, |_, Line { set, quantity }| Line {
            set,
            quantity: if bad_set { quantity.max(1) } else { quantity },
        })
    }),
    ("the line of refusal 15 is always 0", |call, lent| {
        at_refusal(call, lent, &[refusal::ZERO_QUANTITY], |lent| lent.answer.inside()[0] = 0)
    }),
    ("2,048 placements are refused", |call, lent| {
        let total: usize = quantities_in(lent.file.inside()).into_iter().map(usize::from).sum();
        let last = quantities_in(lent.file.inside()).len().saturating_sub(1);
        on_lines(call, lent, |line, Line { set, quantity }| {
            let more = u8::from(total == MOST_PLACEMENTS && line == last && quantity < 255);
            Line { set, quantity: quantity + more }
        })
    }),
    ("2,049 placements are accepted", |call, lent| {
        let quantities = quantities_in(lent.file.inside());
        let total: usize = quantities.iter().map(|&quantity| usize::from(quantity)).sum();
        let lowered = quantities.iter().position(|&quantity| quantity > 1);
        on_lines(call, lent, |line, Line { set, quantity }| {
            let less = u8::from(total == MOST_PLACEMENTS + 1 && Some(line) == lowered);
            Line { set, quantity: quantity - less }
        })
    }),
    ("any number of placements is accepted", |call, lent| {
        let passing = first_to_pass(&quantities_in(lent.file.inside())).is_some();
        on_lines(call, lent, |_, Line { set, quantity }| Line {
            set,
            quantity: if passing { quantity.min(1) } else { quantity },
        })
    }),
    ("too many placements are refused before a bad line behind them", |call, lent| {
        let returned = call_library(call, lent);
        let passing = first_to_pass(&quantities_in(lent.file.inside()));
        match (refusal(call, returned), passing) {
            (refusal::EMPTY_LINE | refusal::TIP_OUTSIDE | refusal::ZERO_QUANTITY, Some(line))
                if (line as u64) < lent.answer.inside()[0] =>
            {
                lent.answer.inside()[0] = line as u64;
                30
            }
            _ => returned,
        }
    }),
    ("too many placements are refused before a bad line before them", |call, lent| {
        let returned = call_library(call, lent);
        let passing = first_to_pass(&quantities_in(lent.file.inside()));
        match (refusal(call, returned), passing) {
            (refusal::EMPTY_LINE | refusal::TIP_OUTSIDE | refusal::ZERO_QUANTITY, Some(line))
                if (line as u64) > lent.answer.inside()[0] =>
            {
                lent.answer.inside()[0] = line as u64;
                30
            }
            _ => returned,
        }
    }),
    ("refusal 30 names the last line", |call, lent| {
        at_passing_line(call, lent, |lent| {
            lent.answer.inside()[0] = quantities_in(lent.file.inside()).len() as u64 - 1;
        })
    }),
    ("refusal 30 names no line", |call, lent| at_passing_line(call, lent, |lent| lent.answer.inside()[0] = 0)),
    ("refusal 30 names the last line that fits", |call, lent| {
        at_passing_line(call, lent, |lent| lent.answer.inside()[0] -= 1)
    }),
];

pub(super) const OF_VERSIONS: &[Mistake] = &[
    ("version 2 is refused", |call, lent| {
        on_head(call, lent, |head| {
            if head.version == 2 {
                head.put_version(3)
            }
        })
    }),
    ("version 3 is read as version 2", |call, lent| {
        on_head(call, lent, |head| {
            if head.version == 3 {
                head.put_version(2)
            }
        })
    }),
    ("version 0 is read as version 1", |call, lent| {
        on_head(call, lent, |head| {
            if head.version == 0 {
                head.put_version(1)
            }
        })
    }),
    ("version 2 is taken for version 1 where its length is that of version 1", |call, lent| {
        on_head(call, lent, |head| {
            if head.version == 2 && head.bytes.len() == Version::One.length_of(head.count) {
                head.put_version(1)
            }
        })
    }),
    ("version 1 is taken for version 2 where its length is that of version 2", |call, lent| {
        on_head(call, lent, |head| {
            if head.version == 1 && head.bytes.len() == Version::Two.length_of(head.count) {
                head.put_version(2)
            }
        })
    }),
    ("a file of version 2 is written back as version 2", |call, lent| {
        if head_of(lent.file.inside()).is_some_and(|head| head.version == 2) {
            on_written(call, lent, |kept| file_in(&kept, Version::Two))
        } else {
            call_library(call, lent)
        }
    }),
    ("a file of version 2 without lines is written back as version 2", |call, lent| {
        let version = head_of(lent.file.inside()).map_or(0, |head| head.version);
        on_written(call, lent, |kept| {
            file_in(&kept, if kept.count == 0 && version == 2 { Version::Two } else { version_of(&kept) })
        })
    }),
    ("version 2 is always written", |call, lent| on_written(call, lent, |kept| file_in(&kept, Version::Two))),
    ("the first 511 lines decide the version", |call, lent| {
        on_written(call, lent, |kept| {
            if kept.count == 512 && kept.quantities[..511].iter().all(|&quantity| quantity == 1) {
                file_of(&single(&kept))
            } else {
                file_of(&kept)
            }
        })
    }),
    ("the output must be as long as the file that was read", |call, lent| match *call {
        Call::Keep { out, .. } if out < lent.file.length => {
            let given = lent.bytes.clone();
            let returned = call_library(call, lent);
            if returned == 0 {
                lent.bytes = given;
                lent.answer.inside()[..ANSWER_PLACES].fill(0);
                return 11;
            }
            returned
        }
        _ => call_library(call, lent),
    }),
    ("an output of the length of version 1 does for version 2", |call, lent| match (call, board_of(lent)) {
        (Call::Keep { .. }, Some(board)) => {
            let returned = call_library(call, lent);
            let first = file_of(&single(&board));
            if returned == refusal::SHORT_OUTPUT && lent.bytes.length >= first.len() {
                lent.bytes.inside()[..first.len()].copy_from_slice(&first);
                return 0;
            }
            returned
        }
        _ => call_library(call, lent),
    }),
    ("the report takes no more than the longest good file", |call, lent| on_report_of(call, lent, LONGEST_FILE)),
    ("the report takes 4,105 bytes", |call, lent| on_report_of(call, lent, 4105)),
];

/// The call on a file with other quantities.
fn on_quantities(call: &Call, lent: &mut Buffers, edit: fn(u8) -> u8) -> u64 {
    on_lines(call, lent, |_, Line { set, quantity }| Line { set, quantity: edit(quantity) })
}

/// The call on one file, and then a change where a line of it passes 2,048 placements.
fn at_passing_line(call: &Call, lent: &mut Buffers, change: impl FnOnce(&mut Buffers)) -> u64 {
    match call {
        Call::Merge { .. } | Call::Alone { .. } => call_library(call, lent),
        _ => at_refusal(call, lent, &[refusal::TOO_MANY_PLACEMENTS], change),
    }
}

/// The report of the first bytes.
fn on_report_of(call: &Call, lent: &mut Buffers, bytes: usize) -> u64 {
    match call {
        Call::Report { .. } => on_file(call, lent, |file| file.truncate(bytes)),
        _ => call_library(call, lent),
    }
}
