//! Goals of pairs: rows worked out by hand.

use second::{refusal, Board, Line, Stage};

/// The closed board of these lines, tips and quantity.
fn closed(rack: usize, lines: &[(&[usize], u8)]) -> Board {
    let set = |tips: &[usize]| tips.iter().fold(0, |set, tip| set | 1 << tip);
    let lines: Vec<Line> = lines.iter().map(|&(tips, quantity)| Line { set: set(tips), quantity }).collect();
    Board::of_lines(rack, &lines)
}

/// The goal leaves these tips of each line, and nothing else changes.
fn assert_left(board: &Board, goal: u32, left: &[u64]) {
    let answer = board.clone().goal(goal);
    assert_eq!((answer.number, answer.place), (0, 0));
    let mut expected = board.clone();
    expected.sets[..board.count].copy_from_slice(left);
    assert_eq!(answer.board, expected);
}

fn assert_refused(board: &Board, goal: u32, number: u32, place: usize) {
    let answer = board.clone().goal(goal);
    assert_eq!((answer.number, answer.place, &answer.board), (number, place, board));
}

/// B23 of the rules: its plans have 20, 17, 14 and 14 pairs.
fn b23() -> Board {
    closed(3, &[(&[0], 2), (&[0, 1], 3), (&[1, 2], 3), (&[2], 2)])
}

#[test]
fn b49_to_b51_of_the_rules() {
    for goal in [0, 14, 15, 17] {
        assert_left(&b23(), goal, &[0b001, 0b011, 0b110, 0b100]);
    }
    for goal in [18, 20] {
        assert_left(&b23(), goal, &[0b001, 0b001, 0b100, 0b100]);
    }
    assert_refused(&b23(), 21, refusal::GOAL_MISSED, 0);
    assert_refused(&b23(), u32::MAX, refusal::GOAL_MISSED, 0);
    let empty = closed(3, &[]);
    assert_left(&empty, 0, &[]);
    assert_refused(&empty, 1, refusal::GOAL_MISSED, 0);
}

#[test]
fn b52_every_tip_of_equal_lines_stays() {
    let board = closed(3, &[(&[0, 1, 2], 1), (&[0, 1, 2], 1)]);
    assert_left(&board, 1, &[0b111, 0b111]);
    assert_refused(&board, 2, refusal::GOAL_MISSED, 0);
}

#[test]
fn b53_a_gap_is_left() {
    let board = closed(3, &[(&[0, 1, 2], 255), (&[0], 2), (&[1], 1), (&[2], 2)]);
    assert_left(&board, 32_642, &[0b111, 0b001, 0b010, 0b100]);
    assert_left(&board, 32_643, &[0b101, 0b001, 0b010, 0b100]);
    let left = board.goal(32_643).board;
    let best = left.best(None, &mut [0; 4], &mut [0; 9]);
    assert_eq!((best.number, best.place), (refusal::NO_RUN, 0));
}

#[test]
fn b54_tips_that_no_line_names() {
    let board = closed(5, &[(&[0], 1), (&[0, 4], 1), (&[4], 2)]);
    assert_left(&board, 2, &[0b00001, 0b10001, 0b10000]);
    assert_left(&board, 3, &[0b00001, 0b10000, 0b10000]);
    assert_refused(&board, 4, refusal::GOAL_MISSED, 0);
}

#[test]
fn b55_the_order_of_refusals() {
    let board = closed(3, &[(&[1], 1), (&[0, 2], 1)]);
    assert_refused(&Board { stage: Stage::Open, ..board.clone() }, 0, refusal::BOARD_OPEN, 0);
    assert_refused(&board, 0, refusal::NO_RUN, 1);
    assert_refused(&board, u32::MAX, refusal::NO_RUN, 1);
}

#[test]
fn equal_sets_of_other_quantities_may_keep_other_tips() {
    // All on tip 0 but {1}: 12 and 2 placements, 66 + 1 pairs. The line of 1 on tip 1: 55 + 3; that of 5: 43 at most.
    let board = closed(2, &[(&[0], 6), (&[1], 2), (&[0, 1], 1), (&[0, 1], 5)]);
    assert_left(&board, 58, &[0b01, 0b10, 0b11, 0b01]);
    assert_left(&board, 43, &[0b01, 0b10, 0b11, 0b11]);
    assert_left(&board, 59, &[0b01, 0b10, 0b01, 0b01]);
}
