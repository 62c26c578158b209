//! The lines about the catalogue's counts: how many assignments are within each bound of the cost.

use second::{try_every_plan, Board};

use crate::every_plan::{every_board, single};

/// The assignments within the bound: the plans of lines that allow every tip, tried one by one.
fn within(variables: usize, bound: usize) -> u64 {
    let rack = variables + 1;
    try_every_plan(&Board::of_sets(rack, &vec![(1 << rack) - 1; variables])).plans_within(bound)
}

/// The assignments whose boards, of one tip to a line, pass the test.
fn passing(variables: usize, test: impl Fn(&Board) -> bool) -> usize {
    let rack = variables + 1;
    let single_tips: Vec<u64> = (0..rack).map(|tip| 1 << tip).collect();
    let mut count = 0;
    every_board(rack, &single(&single_tips), variables, &mut |board| count += usize::from(test(board)));
    count
}

fn show_bound(variables: usize, bound: usize) -> String {
    let assignments = passing(variables, |_| true);
    let common = passing(variables, |board| board.clone().common_tip().value.off <= bound);
    let kept = passing(variables, |board| board.clone().keep_within(bound as u16).number == 0);
    format!(
        "variables {variables} assignments {assignments} bound {bound} within {} common tip {common} kept {kept}",
        within(variables, bound)
    )
}

pub fn lines() -> Vec<String> {
    let bounds = |variables| (0..=variables).map(move |bound| show_bound(variables, bound));
    bounds(3).chain(bounds(4)).collect()
}
