//! The functions of include/tipshare.h, answered by this implementation on slices.

use crate::along::Along;
use crate::board::{Answer, Board};
use crate::by_tips::{self, ByTips};
use crate::exact::Exact;
use crate::file::read as read_file;
use crate::junior::Junior;
use crate::placing::{order_parts, Ordered, Part, Placing, Rule};
use crate::refusal;
use crate::windows::find_windows;

/// The least length of an output for a report.
pub const REPORT_SPACE: usize = 16_384;
/// The places of an answer.
pub const ANSWER_PLACES: usize = 4;
/// The mounted tip where there is none.
pub const NO_TIP: usize = usize::MAX;

/// Writes the four places of an answer and hands the number on.
fn answered(answer: &mut [u64], number: u32, places: [u64; ANSWER_PLACES]) -> u32 {
    answer[..ANSWER_PLACES].copy_from_slice(&places);
    number
}

/// The answer of a call without any value.
fn refused<T>(answer: &mut [u64], call: &Answer<T>) -> u32 {
    answered(answer, call.number, [call.place as u64, 0, 0, 0])
}

/// Answers by the call on the file's board, unless the answer is short or the file is refused.
fn on_board(file: &[u8], answer: &mut [u64], call: impl FnOnce(Board, &mut [u64]) -> u32) -> u32 {
    if answer.len() < ANSWER_PLACES {
        return refusal::SHORT_ANSWER;
    }
    let job = read_file(file);
    if job.number != refusal::ACCEPTED {
        return refused(answer, &job);
    }
    call(job.board, answer)
}

/// Rack size and number of lines of a file: place, rack size, lines, 0.
pub fn read(file: &[u8], answer: &mut [u64]) -> u32 {
    on_board(file, answer, |board, answer| {
        answered(answer, refusal::ACCEPTED, [0, board.rack as u64, board.count as u64, 0])
    })
}

/// The common tip: place, top, off, the set of common tips.
pub fn common(file: &[u8], answer: &mut [u64]) -> u32 {
    on_board(file, answer, |board, answer| {
        let common = board.common_tip().value;
        answered(answer, refusal::ACCEPTED, [0, common.top as u64, common.off as u64, common.tips])
    })
}

/// Keeps within k and writes the kept board to out: place, margin, bytes, 0.
pub fn keep(file: &[u8], k: u16, out: &mut [u8], answer: &mut [u64]) -> u32 {
    on_board(file, answer, |board, answer| {
        let kept = board.keep_within(k);
        if kept.number != refusal::ACCEPTED {
            return answered(answer, kept.number, [kept.place as u64, kept.value as u64, 0, 0]);
        }
        let written = kept.board.write(out);
        if written.number != refusal::ACCEPTED {
            return refused(answer, &written);
        }
        answered(answer, refusal::ACCEPTED, [0, kept.value as u64, written.value as u64, 0])
    })
}

/// Keeps what a goal of pairs leaves, and writes the kept board to out: place, bytes, 0, 0.
pub fn goal(file: &[u8], goal: u32, out: &mut [u8], answer: &mut [u64]) -> u32 {
    on_board(file, answer, |board, answer| {
        let kept = board.goal(goal);
        if kept.number != refusal::ACCEPTED {
            return refused(answer, &kept);
        }
        let written = kept.board.write(out);
        answered(answer, written.number, [written.place as u64, written.value as u64, 0, 0])
    })
}

/// The mounted tip of a call, where there is one.
fn mounted_tip(mounted: usize) -> Option<usize> {
    (mounted != NO_TIP).then_some(mounted)
}

/// Quick sharing: place, pairs, 0, 0.
pub fn quick(file: &[u8], mounted: usize, plan: &mut [u8], answer: &mut [u64]) -> u32 {
    on_board(file, answer, |board, answer| {
        let quick = board.quick(mounted_tip(mounted), plan);
        answered(answer, quick.number, [quick.place as u64, u64::from(quick.value), 0, 0])
    })
}

/// Best sharing: place, pairs, 0, 0.
pub fn best(file: &[u8], mounted: usize, plan: &mut [u8], table: &mut [u32], answer: &mut [u64]) -> u32 {
    on_board(file, answer, |board, answer| {
        let best = board.best(mounted_tip(mounted), plan, table);
        answered(answer, best.number, [best.place as u64, u64::from(best.value), 0, 0])
    })
}

/// Exact sharing: place, pairs, tips, 0.
pub fn exact(file: &[u8], mounted: usize, price: u32, plan: &mut [u8], table: &mut [u32], answer: &mut [u64]) -> u32 {
    on_board(file, answer, |board, answer| {
        let exact = board.exact(mounted_tip(mounted), price, plan, table);
        let Exact { pairs, tips } = exact.value;
        answered(answer, exact.number, [exact.place as u64, pairs.into(), tips.into(), 0])
    })
}

/// The fewest tip changes along the list: place, changes, pairs, 0.
pub fn along(file: &[u8], mounted: usize, plan: &mut [u8], answer: &mut [u64]) -> u32 {
    on_board(file, answer, |board, answer| {
        let along = board.along(mounted_tip(mounted), plan);
        let Along { changes, pairs } = along.value;
        answered(answer, along.number, [along.place as u64, changes.into(), pairs.into(), 0])
    })
}

/// The check of a plan from other software: place, 0, 0, 0.
pub fn check(file: &[u8], plan: &[u8], claim: u32, table: &[u32], answer: &mut [u64]) -> u32 {
    on_board(file, answer, |board, answer| refused(answer, &board.check(plan, claim, table)))
}

/// Plans for the Junior: place, pairs, the lower tip, the other tip.
pub fn junior(file: &[u8], plan: &mut [u8], answer: &mut [u64]) -> u32 {
    on_board(file, answer, |board, answer| {
        let planned = board.junior(plan);
        let Junior { pairs, u, v } = planned.value;
        answered(answer, planned.number, [planned.place as u64, pairs.into(), u as u64, v as u64])
    })
}

/// Answers by the call on the boards of both files, unless the answer is short or one of them is refused, the first first.
fn on_boards(
    first: &[u8],
    second: &[u8],
    answer: &mut [u64],
    call: impl FnOnce(Board, Board, &mut [u64]) -> u32,
) -> u32 {
    on_board(first, answer, |first, answer| on_board(second, answer, |second, answer| call(first, second, answer)))
}

/// Merges two boards and writes the panel to out: place, bytes, 0, 0.
pub fn merge(first: &[u8], second: &[u8], out: &mut [u8], answer: &mut [u64]) -> u32 {
    on_boards(first, second, answer, |first, second, answer| {
        let merged = first.merge(second);
        if merged.number != refusal::ACCEPTED {
            return answered(answer, merged.number, [merged.place as u64, 0, 0, 0]);
        }
        let written = merged.panel.write(out);
        answered(answer, written.number, [written.place as u64, written.value as u64, 0, 0])
    })
}

/// Quick sharing of each of two boards alone: place, pairs of the first, pairs of the second, 0.
pub fn alone(first: &[u8], second: &[u8], plan: &mut [u8], answer: &mut [u64]) -> u32 {
    on_boards(first, second, answer, |first, second, answer| {
        let alone = first.alone(second, plan);
        let pairs = [alone.first_pairs, alone.second_pairs].map(u64::from);
        answered(answer, alone.number, [alone.place as u64, pairs[0], pairs[1], 0])
    })
}

/// Mends a file and writes it to out, and its changes to the report: place, bytes of the file, bytes of the report, 0.
pub fn mend(file: &[u8], out: &mut [u8], report: &mut [u8], answer: &mut [u64]) -> u32 {
    if answer.len() < ANSWER_PLACES {
        return refusal::SHORT_ANSWER;
    }
    let mending = crate::mend(file, out, report);
    answered(answer, mending.number, [0, mending.file as u64, mending.report as u64, 0])
}

/// The numbers of a part and of a rule.
pub const PART_PLACES: usize = 4;
pub const RULE_PLACES: usize = 2;

/// Answers by the call on parts and rules, unless the answer is short or a part or a rule is not whole: place, parts,
/// changes, 0.
fn on_parts(parts: &[u32], rules: &[u32], answer: &mut [u64], call: impl FnOnce(&Placing) -> ByTips) -> u32 {
    if answer.len() < ANSWER_PLACES {
        return refusal::SHORT_ANSWER;
    }
    if !parts.len().is_multiple_of(PART_PLACES) || !rules.len().is_multiple_of(RULE_PLACES) {
        return answered(answer, refusal::BROKEN_RECORD, [0; ANSWER_PLACES]);
    }
    let part = |of: &[u32]| Part { first: of[0], last: of[1], fine: of[2] != 0, tall: of[3] != 0 };
    let parts: Vec<Part> = parts.chunks(PART_PLACES).map(part).collect();
    let rules: Vec<Rule> = rules.chunks(RULE_PLACES).map(|of| (of[0], of[1])).collect();
    let ByTips { ordered, changes } = call(&Placing { parts: &parts, rules: &rules });
    let count = if ordered.number == refusal::ACCEPTED { parts.len() } else { 0 };
    answered(answer, ordered.number, [ordered.place as u64, count as u64, changes as u64, 0])
}

/// What a call without tips gives.
fn without_tips(ordered: Ordered) -> ByTips {
    ByTips { ordered, changes: 0 }
}

/// The placing order.
pub fn order(parts: &[u32], rules: &[u32], order: &mut [u8], answer: &mut [u64]) -> u32 {
    on_parts(parts, rules, answer, |placing| without_tips(order_parts(placing, order)))
}

/// The first and the last position that each part can have.
pub fn windows(parts: &[u32], rules: &[u32], first: &mut [u8], last: &mut [u8], answer: &mut [u64]) -> u32 {
    on_parts(parts, rules, answer, |placing| without_tips(find_windows(placing, first, last)))
}

/// The placing order by tips.
pub fn order_by_tips(
    parts: &[u32],
    rules: &[u32],
    plan: &[u8],
    mounted: usize,
    order: &mut [u8],
    answer: &mut [u64],
) -> u32 {
    on_parts(parts, rules, answer, |placing| by_tips::order_by_tips(placing, plan, mounted_tip(mounted), order))
}

/// Writes the report to out and gives its length, 0 where out is too short.
pub fn report(file: &[u8], out: &mut [u8]) -> usize {
    if out.len() < REPORT_SPACE {
        return 0;
    }
    let text = crate::report(file);
    out[..text.len()].copy_from_slice(&text);
    text.len()
}
