//! How a call is changed: another file, bound or buffer, or another answer.

use crate::boards::{is_counted, single};
use crate::check::{call_library, Buffers, Call, Lent};
use crate::files::{board_in, file_of, line_in, put_line};
use job_file::{Version, AT_COUNT, AT_VERSION};
use second::interface::NO_TIP;
use second::{Board, Line};

/// The refusal number of a call, 0 for an accepted one and for a report.
pub(super) fn refusal(call: &Call, returned: u64) -> u64 {
    match call {
        Call::Report { .. } => 0,
        _ => returned,
    }
}

/// The placements of lines that have the tip.
pub(super) fn placements_with(board: &Board, tip: usize) -> usize {
    board.placements().iter().filter(|&&set| set >> tip & 1 == 1).count()
}

/// The board of a good file.
pub(super) fn board_of(lent: &mut Buffers) -> Option<Board> {
    board_in(lent.file.inside()).ok()
}

pub(super) fn lowest(set: u64) -> u8 {
    set.trailing_zeros() as u8
}

/// The named tips that a set lacks between its lowest and its highest.
pub(super) fn missed(set: u64, named: u64) -> u64 {
    u64::MAX >> set.leading_zeros() & u64::MAX << set.trailing_zeros() & named & !set
}

/// Changes the first byte of the plan or output, where there is one.
pub(super) fn touch(lent: &mut Buffers) {
    if let Some(byte) = lent.bytes.inside().first_mut() {
        *byte ^= 1;
    }
}

/// A file of 8 bytes at least, and what its head says.
pub(super) struct Head<'a> {
    pub(super) bytes: &'a mut [u8],
    pub(super) version: u16,
    pub(super) rack: usize,
    pub(super) count: usize,
}

impl Head<'_> {
    pub(super) fn put_count(&mut self, count: u16) {
        self.bytes[AT_COUNT].copy_from_slice(&count.to_be_bytes());
    }

    pub(super) fn put_version(&mut self, version: u16) {
        self.bytes[AT_VERSION].copy_from_slice(&version.to_be_bytes());
    }

    /// The form of the lines, that of the first version where the head names none.
    pub(super) fn form(&self) -> Version {
        Version::of_number(self.version).unwrap_or(Version::One)
    }

    /// Whether the file is as long as its head says.
    pub(super) fn fits(&self) -> bool {
        self.bytes.len() == self.form().length_of(self.count)
    }
}

pub(super) fn head_of(bytes: &mut [u8]) -> Option<Head<'_>> {
    let job_file::Head { version, rack, count } = job_file::Head::of(bytes)?;
    Some(Head { bytes, version, rack: rack.into(), count: count.into() })
}

/// The call on another file.
pub(super) fn on_file(call: &Call, lent: &mut Buffers, edit: impl FnOnce(&mut Vec<u8>)) -> u64 {
    let mut file = lent.file.inside().to_vec();
    edit(&mut file);
    let given = std::mem::replace(&mut lent.file, Lent::of(file));
    let returned = call_library(call, lent);
    lent.file = given;
    returned
}

/// The call on a file with another head.
pub(super) fn on_head(call: &Call, lent: &mut Buffers, edit: fn(&mut Head)) -> u64 {
    on_file(call, lent, |file| {
        if let Some(mut head) = head_of(file) {
            edit(&mut head);
        }
    })
}

/// The call on a file with other lines, given number and line; only where its length fits its number of lines.
pub(super) fn on_lines(call: &Call, lent: &mut Buffers, edit: impl Fn(usize, Line) -> Line) -> u64 {
    on_file(call, lent, |file| {
        if let Some(head) = head_of(file).filter(Head::fits) {
            let form = head.form();
            for line in 0..head.count {
                let to = edit(line, line_in(form, head.bytes, line));
                put_line(form, head.bytes, line, to);
            }
        }
    })
}

/// The call on a file with other sets.
pub(super) fn on_sets(call: &Call, lent: &mut Buffers, edit: impl Fn(usize, u64) -> u64) -> u64 {
    on_lines(call, lent, |line, Line { set, quantity }| Line { set: edit(line, set), quantity })
}

/// The call on the same sets with quantity 1, where some quantity is another and the call is of this kind.
pub(super) fn on_single(call: &Call, lent: &mut Buffers, applies: fn(&Call) -> bool) -> u64 {
    match board_of(lent).filter(|board| is_counted(board) && applies(call)) {
        Some(board) => on_file(call, lent, |file| *file = file_of(&single(&board))),
        None => call_library(call, lent),
    }
}

/// The call with another mounted tip, or with one in the place of none, or the other way round.
pub(super) fn with_any_mounted(call: &Call, edit: impl FnOnce(usize) -> usize) -> Call {
    match *call {
        Call::Quick { mounted, plan, answer } => Call::Quick { mounted: edit(mounted), plan, answer },
        Call::Best { mounted, plan, table, answer } => Call::Best { mounted: edit(mounted), plan, table, answer },
        Call::Along { mounted, plan, answer } => Call::Along { mounted: edit(mounted), plan, answer },
        Call::Exact { mounted, price, plan, table, answer } => {
            Call::Exact { mounted: edit(mounted), price, plan, table, answer }
        }
        other => other,
    }
}

/// The call with another mounted tip, where there is one.
pub(super) fn with_mounted(call: &Call, edit: impl FnOnce(usize) -> usize) -> Call {
    with_any_mounted(call, |tip| if tip == NO_TIP { NO_TIP } else { edit(tip) })
}

/// The mounted tip of a call, where there is one.
pub(super) fn mounted_tip(call: &Call) -> Option<usize> {
    match *call {
        Call::Quick { mounted, .. }
        | Call::Best { mounted, .. }
        | Call::Along { mounted, .. }
        | Call::Exact { mounted, .. } => Some(mounted).filter(|&tip| tip != NO_TIP),
        _ => None,
    }
}

/// Lays the lines that have the tip on it, and the others as the board of them has it.
pub(super) fn lay_first(board: &Board, first: u8, plan: &mut [u8], lay_rest: impl FnOnce(Board, &mut [u8])) {
    let left: Vec<Line> = board.lines().filter(|line| line.set >> first & 1 == 0).collect();
    let mut rest = vec![0; left.len()];
    lay_rest(Board::of_lines(board.rack, &left), &mut rest);
    let mut rest = rest.into_iter();
    for (tip, line) in plan.iter_mut().zip(board.lines()) {
        *tip = if line.set >> first & 1 == 1 { first } else { rest.next().expect("a tip") };
    }
}

/// The call, and then a change that depends on its refusal number, 0 for none.
pub(super) fn after(call: &Call, lent: &mut Buffers, change: impl FnOnce(u64, &mut Buffers)) -> u64 {
    let returned = call_library(call, lent);
    change(refusal(call, returned), lent);
    returned
}

/// The call, and then a change where it is refused with one of these numbers.
pub(super) fn at_refusal(call: &Call, lent: &mut Buffers, numbers: &[u64], change: impl FnOnce(&mut Buffers)) -> u64 {
    after(call, lent, |number, lent| {
        if numbers.contains(&number) {
            change(lent);
        }
    })
}

/// The call, and then a change where it is accepted and of this kind.
pub(super) fn on_accepted(
    call: &Call,
    lent: &mut Buffers,
    column: usize,
    change: impl FnOnce(&Board, &mut Buffers),
) -> u64 {
    after(call, lent, |number, lent| {
        if number == 0 && call.column() == column {
            change(&board_of(lent).expect("a good file"), lent);
        }
    })
}

pub(super) fn on_common(call: &Call, lent: &mut Buffers, change: fn(&Board, &mut [u64])) -> u64 {
    let column = Call::Common { answer: 0 }.column();
    on_accepted(call, lent, column, |board, lent| change(board, lent.answer.inside()))
}

pub(super) fn on_quick(call: &Call, lent: &mut Buffers, change: impl FnOnce(&Board, &mut Buffers)) -> u64 {
    on_accepted(call, lent, Call::Quick { mounted: 0, plan: 0, answer: 0 }.column(), change)
}

/// Quick sharing without a mounted tip, with another plan and the pairs of that plan.
pub(super) fn on_quick_plan(call: &Call, lent: &mut Buffers, change: fn(&Board, &mut [u8])) -> u64 {
    match mounted_tip(call) {
        None => on_quick(call, lent, |board, lent| put_quick_plan(board, lent, |plan| change(board, plan))),
        Some(_) => call_library(call, lent),
    }
}

/// Another plan in the place of the quick one, and the pairs of that plan.
pub(super) fn put_quick_plan(board: &Board, lent: &mut Buffers, change: impl FnOnce(&mut [u8])) {
    let plan = &mut lent.bytes.inside()[..board.count];
    change(plan);
    lent.answer.inside()[1] = second::pairs_in(&board.placed(plan)).into();
}

pub(super) fn on_best(call: &Call, lent: &mut Buffers, change: impl FnOnce(&Board, &mut Buffers)) -> u64 {
    on_accepted(call, lent, Call::Best { mounted: 0, plan: 0, table: 0, answer: 0 }.column(), change)
}

pub(super) fn on_keep(call: &Call, lent: &mut Buffers, change: impl FnOnce(&Board, &mut Buffers)) -> u64 {
    on_accepted(call, lent, Call::Keep { k: 0, out: 0, answer: 0 }.column(), change)
}

/// Keep with the file that another board has, given the kept board.
pub(super) fn on_written(call: &Call, lent: &mut Buffers, edit: impl FnOnce(Board) -> Vec<u8>) -> u64 {
    on_keep(call, lent, |_, lent| {
        let length = lent.answer.inside()[2] as usize;
        let file = edit(board_in(&lent.bytes.inside()[..length]).expect("a good file"));
        // A longer file must fit the output.
        if file.len() <= lent.bytes.length {
            lent.bytes.inside()[..file.len()].copy_from_slice(&file);
            lent.answer.inside()[2] = file.len() as u64;
        }
    })
}

/// The call with the tips in this order: the first of it is tip 0 of the library's board.
pub(super) fn renumbered(call: &Call, lent: &mut Buffers, board: &Board, order: &[usize]) -> u64 {
    let renumber =
        |set: u64| (0..order.len()).filter(|&tip| set >> order[tip] & 1 == 1).fold(0, |set, tip| set | 1 << tip);
    let call = &with_mounted(call, |tip| order.iter().position(|&old| old == tip).unwrap_or(tip));
    let returned = on_sets(call, lent, |_, set| renumber(set));
    if refusal(call, returned) == 0 {
        for tip in &mut lent.bytes.inside()[..board.count] {
            *tip = order[usize::from(*tip)] as u8;
        }
    }
    returned
}

/// The call with the highest tip in the place of the lowest.
pub(super) fn mirrored(call: &Call, lent: &mut Buffers, board: &Board) -> u64 {
    let order: Vec<usize> = (0..board.rack).rev().collect();
    renumbered(call, lent, board, &order)
}

/// Another text for a report that is no refusal.
pub(super) fn on_report(call: &Call, lent: &mut Buffers, edit: fn(&Board, &str) -> String) -> u64 {
    let returned = call_library(call, lent);
    match (call, returned, board_of(lent)) {
        (Call::Report { .. }, 1.., Some(board)) => {
            let out = lent.bytes.inside();
            let text = edit(&board, std::str::from_utf8(&out[..returned as usize]).expect("plain text"));
            out[..text.len()].copy_from_slice(text.as_bytes());
            text.len() as u64
        }
        _ => returned,
    }
}
