//! Plans for the Junior: rows worked out by hand.

use second::{refusal, Board, Junior, Line, Stage};

/// The closed board of these lines, tips and quantity.
fn closed(rack: usize, lines: &[(&[usize], u8)]) -> Board {
    let set = |tips: &[usize]| tips.iter().fold(0, |set, tip| set | 1 << tip);
    let lines: Vec<Line> = lines.iter().map(|&(tips, quantity)| Line { set: set(tips), quantity }).collect();
    Board::of_lines(rack, &lines)
}

/// The plan, its pairs and its tips, with nothing written behind the plan.
fn assert_planned(board: &Board, plan: &[u8], pairs: u32, u: usize, v: usize) {
    let mut laid = vec![7; board.count + 2];
    let answer = board.clone().junior(&mut laid);
    assert_eq!((answer.number, answer.place, &answer.board), (0, 0, board));
    assert_eq!(answer.value, Junior { pairs, u, v });
    assert_eq!((&laid[..board.count], &laid[board.count..]), (plan, &[7, 7][..]));
}

fn assert_refused(board: &Board, bytes: usize, number: u32) {
    let mut plan = vec![7; bytes];
    let answer = board.clone().junior(&mut plan);
    assert_eq!((answer.number, answer.place, &answer.board, answer.value), (number, 0, board, Junior::default()));
    assert_eq!(plan, vec![7; bytes]);
}

#[test]
fn b56_one_tip_serves_all() {
    assert_planned(&closed(3, &[(&[0, 1, 2], 2), (&[1, 2], 1)]), &[1, 1], 3, 1, 1);
}

#[test]
fn b57_the_lowest_of_the_best_choices() {
    let board = closed(4, &[(&[0, 1], 1), (&[2, 3], 1), (&[0, 1], 1), (&[2, 3], 1)]);
    assert_planned(&board, &[0, 2, 0, 2], 2, 0, 2);
    // With tips 0 and 2 there are only 2 pairs.
    assert_planned(&closed(3, &[(&[0, 1], 2), (&[1, 2], 1), (&[2], 1)]), &[1, 1, 2], 3, 1, 2);
}

#[test]
fn b58_and_b59_lines_that_allow_both() {
    assert_planned(&closed(2, &[(&[0], 2), (&[1], 1), (&[0, 1], 1)]), &[0, 1, 0], 3, 0, 1);
    assert_planned(&closed(2, &[(&[0], 1), (&[1], 2), (&[0, 1], 1)]), &[0, 1, 1], 3, 0, 1);
    assert_planned(&closed(2, &[(&[0], 1), (&[1], 1), (&[0, 1], 1)]), &[0, 1, 0], 1, 0, 1);
    assert_planned(&closed(2, &[(&[0], 1), (&[0], 1), (&[1], 3), (&[0, 1], 1)]), &[0, 0, 1, 1], 7, 0, 1);
}

#[test]
fn b60_no_tip_without_a_line() {
    assert_planned(&closed(3, &[(&[2], 1), (&[1, 2], 1)]), &[2, 2], 1, 2, 2);
}

#[test]
fn b61_and_b65_the_order_of_refusals() {
    let board = closed(3, &[(&[0], 1), (&[1], 1), (&[2], 1)]);
    assert_refused(&board, 3, refusal::NO_TWO_TIPS);
    assert_refused(&board, 2, refusal::SHORT_PLAN);
    assert_refused(&Board { stage: Stage::Open, ..board }, 0, refusal::BOARD_OPEN);
}

#[test]
fn b62_and_b63_the_largest_boards() {
    assert_planned(&closed(2, &[(&[0, 1][..], 1); 64]), &[0; 64], 2016, 0, 0);
    assert_refused(&closed(2, &[(&[0, 1][..], 1); 65]), 0, refusal::TOO_MANY_LINES);
    assert_planned(&closed(8, &[(&[7], 1)]), &[7], 0, 7, 7);
    assert_refused(&closed(9, &[(&[8], 1)]), 0, refusal::RACK_SIZE);
    assert_refused(&closed(9, &[(&[8][..], 1); 65]), 0, refusal::TOO_MANY_LINES);
    let most = closed(8, &[[(&[0, 7][..], 255); 8].as_slice(), &[(&[7], 8)]].concat());
    assert_planned(&most, &[7; 9], 2_096_128, 7, 7);
}

#[test]
fn b64_no_lines() {
    assert_planned(&closed(3, &[]), &[], 0, 0, 0);
    assert_refused(&closed(9, &[]), 0, refusal::RACK_SIZE);
}
