//! Mistakes in counting placements, in all calls.

use super::changes::{
    lay_first, lowest, mounted_tip, on_best, on_common, on_quick, on_quick_plan, on_report, on_single,
};
use super::Mistake;
use crate::boards::{is_counted, single};
use crate::check::Call;
use crate::files::file_of;
use second::Line;

pub(super) const OF_COUNTING_PLACEMENTS: &[Mistake] = &[
    ("top, off and W go by lines", |call, lent| on_single(call, lent, |call| matches!(call, Call::Common { .. }))),
    ("off counts lines", |call, lent| {
        on_common(call, lent, |board, answer| answer[2] = single(board).common_tip().value.off as u64)
    }),
    ("W goes by lines", |call, lent| {
        on_common(call, lent, |board, answer| answer[3] = single(board).common_tip().value.tips)
    }),
    ("quick sharing goes by lines", |call, lent| on_single(call, lent, |call| matches!(call, Call::Quick { .. }))),
    ("the rounds of quick sharing choose by lines", |call, lent| {
        on_quick_plan(call, lent, |board, plan| {
            if is_counted(board) {
                single(board).quick(None, plan);
            }
        })
    }),
    ("the first round alone chooses by placements", |call, lent| {
        on_quick_plan(call, lent, |board, plan| {
            let chosen = lowest(board.clone().common_tip().value.tips);
            lay_first(board, chosen, plan, |board, plan| {
                single(&board).quick(None, plan);
            });
        })
    }),
    ("two placements of one line are no pair", |call, lent| {
        on_quick(call, lent, |board, lent| {
            let within = |line: Line| u64::from(line.quantity) * u64::from(line.quantity - 1) / 2;
            lent.answer.inside()[1] -= board.lines().map(within).sum::<u64>();
        })
    }),
    ("the number of pairs has 20 bits", |call, lent| {
        on_quick(call, lent, |_, lent| lent.answer.inside()[1] &= 0xF_FFFF)
    }),
    ("best sharing goes by lines", |call, lent| on_single(call, lent, |call| matches!(call, Call::Best { .. }))),
    ("the tips of best sharing are chosen by lines", |call, lent| {
        on_best(call, lent, |board, lent| {
            if is_counted(board) {
                let mut table = vec![0; board.rack * board.rack];
                let plan = &mut lent.bytes.inside()[..board.count];
                library::best(&file_of(&single(board)), mounted_tip(call), plan, &mut table).expect("a board of runs");
            }
        })
    }),
    ("the table has 20 bits", |call, lent| {
        on_best(call, lent, |board, lent| {
            lent.table.inside()[..board.rack * board.rack].iter_mut().for_each(|pairs| *pairs &= 0xF_FFFF);
        })
    }),
    ("the report counts placements in its first line", |call, lent| {
        on_report(call, lent, |board, text| {
            text.replacen(&format!("lines {} ", board.count), &format!("lines {} ", board.placements().len()), 1)
        })
    }),
    ("the report goes by lines", |call, lent| on_single(call, lent, |call| matches!(call, Call::Report { .. }))),
];
