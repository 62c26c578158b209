//! Ways in which mending can be wrong.

use super::changes::{at_refusal, head_of, on_file, touch};
use super::Mistake;
use crate::check::{call_library, Buffers, Call};
use crate::files::{board_in, file_in, file_of, line_in, put_line};
use crate::refusal;
use job_file::{Head, Version, AT_COUNT, AT_RACK, HEAD, LONGEST_FILE};
use second::interface::ANSWER_PLACES;
use second::{mended, Board, Line, CHANGE};

/// A change of a report: line and code.
type Told = (u16, u8);

const WHOLE: u16 = u16::MAX;

pub const OF_MENDED_LINES: &[Mistake] = &[
    ("tips outside the rack stay in a mended file", |call, lent| {
        on_mended(call, lent, |found, file, told| {
            let form = form_of(found);
            let cleared: Vec<usize> = told.iter().filter(|told| told.1 == 1).map(|told| told.0.into()).collect();
            let dropped: Vec<usize> = told.iter().filter(|told| is_dropped(told)).map(|told| told.0.into()).collect();
            let kept = (0..512).filter(|line| !dropped.contains(line));
            for (place, line) in kept.enumerate().filter(|(_, line)| cleared.contains(line)) {
                let Line { quantity, .. } = line_in(form, file, place);
                put_line(form, file, place, Line { set: line_in(form, found, line).set, quantity });
            }
        })
    }),
    ("tips outside the rack are cleared and not told", |call, lent| {
        on_mended(call, lent, |_, _, told| told.retain(|told| told.1 != 1))
    }),
    ("a line that is cleared whole is told as dropped alone", |call, lent| {
        on_mended(call, lent, |_, _, told| {
            let given = told.clone();
            told.retain(|told| told.1 != 1 || !given.contains(&(told.0, 2)))
        })
    }),
    ("an empty line is told as cleared too", |call, lent| {
        on_mended(call, lent, |_, _, told| {
            let given = told.clone();
            *told = Vec::new();
            for &(line, code) in &given {
                if code == 2 && !given.contains(&(line, 1)) {
                    told.push((line, 1));
                }
                told.push((line, code));
            }
        })
    }),
    ("an empty line with quantity 0 is told as raised", |call, lent| {
        on_mended(call, lent, |found, _, told| {
            let given = std::mem::take(told);
            for (line, code) in given {
                told.push((line, code));
                if code == 2 && line_in(form_of(found), found, line.into()).quantity == 0 {
                    told.push((line, 3));
                }
            }
        })
    }),
    ("a line of quantity 0 stays as it is", |call, lent| {
        on_mended(call, lent, |_, file, told| {
            if let (&[(0, 3), ..], Some(at)) = (&told[..], form_of(file).at_quantity(0)) {
                file[at] = 0;
            }
        })
    }),
    ("a line of quantity 0 is dropped", |call, lent| match call {
        Call::Mend { .. } => {
            on_lines(call, lent, |line| if line.quantity == 0 { Line { set: 0, ..line } } else { line })
        }
        _ => call_library(call, lent),
    }),
    ("a quantity of 0 becomes 255", |call, lent| match call {
        Call::Mend { .. } => {
            on_lines(call, lent, |line| if line.quantity == 0 { Line { quantity: 255, ..line } } else { line })
        }
        _ => call_library(call, lent),
    }),
    ("a raised quantity is not told", |call, lent| on_mended(call, lent, |_, _, told| told.retain(|told| told.1 != 3))),
    ("quantities of version 2 that are all 1 are written as version 1", |call, lent| {
        on_mended(call, lent, |_, file, _| {
            *file = file_of(&mended_board(file));
        })
    }),
    ("lines after the first 4 get their other changes too", |call, lent| {
        on_mended(call, lent, |found, _, told| {
            let Some(first) = told.iter().position(|told| told.1 == 4) else { return };
            let given = told.split_off(first + 1);
            for (line, code) in given {
                if code == 4 && line_in(form_of(found), found, line.into()).set == 0 {
                    told.push((line, 2));
                }
                told.push((line, code));
            }
        })
    }),
    ("only the first 4 is told", |call, lent| {
        on_mended(call, lent, |_, _, told| {
            let first = told.iter().position(|told| told.1 == 4);
            let mut place = 0;
            told.retain(|told| {
                place += 1;
                told.1 != 4 || Some(place - 1) == first
            });
        })
    }),
    ("a line that passes gets 4 alone", |call, lent| {
        on_mended(call, lent, |_, _, told| {
            let given = told.clone();
            told.retain(|told| told.1 == 4 || !given.contains(&(told.0, 4)))
        })
    }),
    ("2,048 placements pass", |call, lent| match call {
        Call::Mend { .. } => {
            let is_full = |lent: &mut Buffers| {
                mended(lent.file.inside()).is_ok_and(|it| mended_board(&it.file).placements().len() == 2048)
            };
            if is_full(lent) {
                on_mended(call, lent, |_, file, _| {
                    let board = mended_board(file);
                    let lines: Vec<Line> = board.lines().take(board.count - 1).collect();
                    *file = file_in(&Board::of_lines(board.rack, &lines), form_of(file));
                })
            } else {
                call_library(call, lent)
            }
        }
        _ => call_library(call, lent),
    }),
    ("a line that fits behind the first that passes is kept", |call, lent| {
        on_mended(call, lent, |found, file, told| {
            let Some(at) = told.iter().rposition(|told| told.1 == 4) else { return };
            let (form, line) = (form_of(found), line_in(form_of(found), found, told[at].0.into()));
            let board = mended_board(file);
            let is_later = told.iter().filter(|told| told.1 == 4).count() > 1;
            if is_later && board.placements().len() + usize::from(line.quantity) <= 2048 && line.quantity > 0 {
                let lines: Vec<Line> = board.lines().chain([line]).collect();
                let longer = Board::of_lines(board.rack, &lines);
                if longer.is_sound() {
                    told.remove(at);
                    *file = file_in(&longer, form);
                }
            }
        })
    }),
];

pub const OF_MENDED_FILES: &[Mistake] = &[
    ("bytes behind the last line are not told", |call, lent| {
        on_mended(call, lent, |_, _, told| told.retain(|told| told.1 != 6))
    }),
    ("a part of a line behind is not told", |call, lent| {
        on_mended(call, lent, |found, _, told| {
            if !(found.len() - HEAD).is_multiple_of(form_of(found).line()) {
                told.retain(|told| told.1 != 6)
            }
        })
    }),
    ("bytes behind are told where no line was read", |call, lent| {
        on_mended(call, lent, |found, _, told| {
            if found.len() == HEAD {
                told.push((WHOLE, 6))
            }
        })
    }),
    ("another count is not told", |call, lent| on_mended(call, lent, |_, _, told| told.retain(|told| told.1 != 5))),
    ("a count is told as changed where lines are missing alone", |call, lent| {
        on_mended(call, lent, |found, _, told| {
            let whole = (found.len() - HEAD) / form_of(found).line();
            if count_in(found) <= whole.min(512) {
                told.retain(|told| told.1 != 5)
            }
        })
    }),
    ("the count found stays", |call, lent| {
        on_mended(call, lent, |found, file, _| file[AT_COUNT].copy_from_slice(&found[AT_COUNT]))
    }),
    ("6 is told before 5", |call, lent| {
        on_mended(call, lent, |_, _, told| {
            if let [.., one, other] = &mut told[..] {
                if (one.1, other.1) == (5, 6) {
                    std::mem::swap(one, other)
                }
            }
        })
    }),
    ("5 and 6 are told under the line behind the last", |call, lent| {
        on_mended(call, lent, |_, _, told| told.iter_mut().filter(|told| told.0 == WHOLE).for_each(|told| told.0 = 512))
    }),
    ("changes are told by the new line numbers", |call, lent| {
        on_mended(call, lent, |_, _, told| {
            let given = told.clone();
            for told in told.iter_mut().filter(|told| told.0 != WHOLE) {
                told.0 -= given.iter().filter(|other| is_dropped(other) && other.0 < told.0).count() as u16;
            }
        })
    }),
    ("changes are told by lines counted from 1", |call, lent| {
        on_mended(call, lent, |_, _, told| told.iter_mut().filter(|told| told.0 != WHOLE).for_each(|told| told.0 += 1))
    }),
    ("line numbers of a report are little-endian", |call, lent| {
        on_mended(call, lent, |_, _, told| told.iter_mut().for_each(|told| told.0 = told.0.swap_bytes()))
    }),
    ("line numbers of a report have 8 bits", |call, lent| {
        on_mended(call, lent, |_, _, told| {
            told.iter_mut().filter(|told| told.0 != WHOLE).for_each(|told| told.0 &= 0xFF)
        })
    }),
    ("changes are told by their code, then by line", |call, lent| {
        on_mended(call, lent, |_, _, told| told.sort_by_key(|told| told.1))
    }),
    ("at most 511 lines are mended", |call, lent| match call {
        Call::Mend { .. } => on_file(call, lent, |file| {
            if let Some(mut head) = head_of(file).filter(|head| matches!(head.version, 1 | 2)) {
                let whole = (head.bytes.len() - HEAD) / head.form().line();
                if head.count >= 512 && whole >= 512 {
                    head.put_count(511)
                }
            }
        }),
        _ => call_library(call, lent),
    }),
    ("a count above 512 is refused by a mending", |call, lent| {
        on_refused(call, lent, |found, number| if number == 0 && count_in(found) > 512 { 9 } else { number })
    }),
    ("a length that does not fit is refused by a mending", |call, lent| {
        on_refused(call, lent, |found, number| {
            let fits = found.len() == form_of(found).length_of(count_in(found));
            if number == 0 && !fits && count_in(found) <= 512 {
                10
            } else {
                number
            }
        })
    }),
    ("a mending takes 4,616 bytes at most", |call, lent| match call {
        Call::Mend { .. } => on_file(call, lent, |file| file.truncate(LONGEST_FILE)),
        _ => call_library(call, lent),
    }),
];

pub const OF_MENDING_OUTPUTS: &[Mistake] = &[
    ("the lengths of a mending change places", |call, lent| match call {
        Call::Mend { .. } => at_refusal(call, lent, &[refusal::ACCEPTED], |lent| lent.answer.inside().swap(1, 2)),
        _ => call_library(call, lent),
    }),
    ("a mending tells the number of changes", |call, lent| match call {
        Call::Mend { .. } => {
            at_refusal(call, lent, &[refusal::ACCEPTED], |lent| lent.answer.inside()[2] /= CHANGE as u64)
        }
        _ => call_library(call, lent),
    }),
    ("a mending tells a place", |call, lent| {
        let first = mended(lent.file.inside()).ok().and_then(|it| it.changes.first().copied());
        match (call, first) {
            (Call::Mend { .. }, Some(change)) => {
                at_refusal(call, lent, &[refusal::ACCEPTED], |lent| lent.answer.inside()[0] = change.line.into())
            }
            _ => call_library(call, lent),
        }
    }),
    ("a mending needs a report of whole lines", |call, lent| {
        on_room(call, lent, |room, number| if number == 0 && room.report == room.told { 11 } else { number })
    }),
    ("a mending needs an output as long as its file", |call, lent| {
        on_room(call, lent, |room, number| if number == 0 && room.out < room.found { 11 } else { number })
    }),
    ("a report that is too short is left out", |call, lent| match (*call, mended(lent.file.inside())) {
        (Call::Mend { out, answer, .. }, Ok(it)) if out >= it.file.len() && answer >= ANSWER_PLACES => {
            let returned = call_library(call, lent);
            if returned == refusal::SHORT_OUTPUT {
                lent.bytes.inside()[..it.file.len()].copy_from_slice(&it.file);
                lent.answer.inside()[1] = it.file.len() as u64;
                return 0;
            }
            returned
        }
        _ => call_library(call, lent),
    }),
    ("a refused mending writes the report", |call, lent| match (*call, mended(lent.file.inside())) {
        (Call::Mend { report, .. }, Ok(it)) if report >= it.report().len() => {
            at_refusal(call, lent, &[refusal::SHORT_OUTPUT], |lent| {
                lent.other.inside()[..it.report().len()].copy_from_slice(&it.report());
            })
        }
        _ => call_library(call, lent),
    }),
    ("a refused mending writes the head", |call, lent| match call {
        Call::Mend { .. } => at_refusal(call, lent, &[refusal::SHORT_OUTPUT], touch),
        _ => call_library(call, lent),
    }),
    ("11 comes before the refusals of the head", |call, lent| match *call {
        Call::Mend { out, .. } if out < HEAD => match call_library(call, lent) {
            refusal::RACK_SIZE | refusal::SHORT_FILE | refusal::WRONG_MARK | refusal::WRONG_VERSION => {
                refusal::SHORT_OUTPUT
            }
            number => number,
        },
        _ => call_library(call, lent),
    }),
    ("a mending writes to the byte behind its file", |call, lent| match call {
        Call::Mend { .. } => at_refusal(call, lent, &[refusal::ACCEPTED], |lent| {
            let place = lent.answer.inside()[1] as usize;
            if let Some(byte) = lent.bytes.inside().get_mut(place) {
                *byte ^= 1;
            }
        }),
        _ => call_library(call, lent),
    }),
    ("a mending writes to the byte behind its report", |call, lent| match call {
        Call::Mend { .. } => at_refusal(call, lent, &[refusal::ACCEPTED], |lent| {
            let place = lent.answer.inside()[2] as usize;
            if let Some(byte) = lent.other.inside().get_mut(place) {
                *byte ^= 1;
            }
        }),
        _ => call_library(call, lent),
    }),
    ("a rack of 64 is cleared by a mending", |call, lent| match call {
        Call::Mend { .. } => {
            let is_full = lent.file.inside().get(AT_RACK) == Some(&64);
            on_lines(call, lent, |line| if is_full { Line { set: 0, ..line } } else { line })
        }
        _ => call_library(call, lent),
    }),
];

/// Whether the line is not in the mended file.
fn is_dropped(told: &Told) -> bool {
    matches!(told.1, 2 | 4)
}

/// What a file whose head is good says there.
fn head_in(file: &[u8]) -> Head {
    Head::of(file).expect("a file with a head")
}

/// The form of the lines of a file whose head is good.
fn form_of(file: &[u8]) -> Version {
    head_in(file).form()
}

fn count_in(file: &[u8]) -> usize {
    head_in(file).count.into()
}

/// The board of a mended file.
fn mended_board(file: &[u8]) -> Board {
    board_in(file).expect("a mended file is good")
}

/// An accepted mending with another file and another report, where there is room for them, given the file found.
fn on_mended(call: &Call, lent: &mut Buffers, edit: fn(&[u8], &mut Vec<u8>, &mut Vec<Told>)) -> u64 {
    let Call::Mend { .. } = call else { return call_library(call, lent) };
    at_refusal(call, lent, &[refusal::ACCEPTED], |lent| {
        let found = lent.file.inside().to_vec();
        let [file, told] = [1, 2].map(|place| lent.answer.inside()[place] as usize);
        let mut file = lent.bytes.inside()[..file].to_vec();
        let told = lent.other.inside()[..told].chunks(CHANGE);
        let mut told: Vec<Told> =
            told.map(|change| (u16::from(change[0]) << 8 | u16::from(change[1]), change[2])).collect();
        edit(&found, &mut file, &mut told);
        let told: Vec<u8> = told.iter().flat_map(|told| [(told.0 >> 8) as u8, told.0 as u8, told.1]).collect();
        if file.len() <= lent.bytes.length && told.len() <= lent.other.length {
            lent.bytes.inside()[..file.len()].copy_from_slice(&file);
            lent.other.inside()[..told.len()].copy_from_slice(&told);
            lent.answer.inside()[1] = file.len() as u64;
            lent.answer.inside()[2] = told.len() as u64;
        }
    })
}

/// The call on a file with other lines, as many as it holds whole.
fn on_lines(call: &Call, lent: &mut Buffers, edit: impl Fn(Line) -> Line) -> u64 {
    on_file(call, lent, |file| {
        if let Some(head) = head_of(file).filter(|head| matches!(head.version, 1 | 2)) {
            let form = head.form();
            for line in 0..(head.bytes.len() - HEAD) / form.line() {
                let to = edit(line_in(form, head.bytes, line));
                put_line(form, head.bytes, line, to);
            }
        }
    })
}

/// A mending of a file with a good head with another number, given the file and the number that is right.
fn on_refused(call: &Call, lent: &mut Buffers, number: fn(&[u8], u64) -> u64) -> u64 {
    let (Call::Mend { answer: ANSWER_PLACES.., .. }, Ok(_)) = (call, mended(lent.file.inside())) else {
        return call_library(call, lent);
    };
    let before = (lent.bytes.clone(), lent.other.clone());
    let returned = call_library(call, lent);
    let told = number(lent.file.inside(), returned);
    if told != returned {
        (lent.bytes, lent.other) = before;
        lent.answer.inside()[..ANSWER_PLACES].fill(0);
    }
    told
}

/// The bytes lent for output and report, those of the file, and those told.
struct Room {
    out: usize,
    report: usize,
    found: usize,
    told: usize,
}

/// A mending with another number by the room that it is lent.
fn on_room(call: &Call, lent: &mut Buffers, number: fn(&Room, u64) -> u64) -> u64 {
    let (Call::Mend { out, report, answer: ANSWER_PLACES.. }, Ok(it)) = (*call, mended(lent.file.inside())) else {
        return call_library(call, lent);
    };
    let before = (lent.bytes.clone(), lent.other.clone());
    let returned = call_library(call, lent);
    let told = number(&Room { out, report, found: lent.file.length, told: it.report().len() }, returned);
    if told != returned {
        (lent.bytes, lent.other) = before;
        lent.answer.inside()[..ANSWER_PLACES].fill(0);
    }
    told
}
