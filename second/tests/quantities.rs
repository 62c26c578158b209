//! Boards whose lines stand for several placements, worked out by hand.

use second::{pairs_in, refusal, report, Answer, Board, CommonTip, Line};

/// The closed board of these lines, tips and quantity, built by open, add and close.
fn closed(rack: usize, lines: &[(&[usize], u8)]) -> Board {
    let mut board = accepted(Board::open(rack)).board;
    for &(tips, quantity) in lines {
        board = accepted(board.add(set(tips), quantity)).board;
    }
    accepted(board.close()).board
}

fn set(tips: &[usize]) -> u64 {
    tips.iter().fold(0, |set, tip| set | 1 << tip)
}

fn accepted<T>(answer: Answer<T>) -> Answer<T> {
    assert_eq!((answer.number, answer.place), (0, 0));
    answer
}

fn quick(board: &Board) -> (Vec<u8>, u32) {
    let mut plan = vec![0xA5; board.count];
    let pairs = accepted(board.clone().quick(None, &mut plan)).value;
    assert_eq!(pairs_in(&board.placed(&plan)), pairs);
    (plan, pairs)
}

fn best(board: &Board) -> (Vec<u8>, u32, Vec<u32>) {
    let mut plan = vec![0xA5; board.count];
    let mut table = vec![0xA5A5_A5A5; board.rack * board.rack];
    let pairs = accepted(board.clone().best(None, &mut plan, &mut table)).value;
    assert_eq!(pairs_in(&board.placed(&plan)), pairs);
    (plan, pairs, table)
}

fn kept(board: &Board, k: u16) -> (i64, Vec<u64>) {
    let answer = accepted(board.clone().keep_within(k));
    assert_eq!(answer.board.quantities, board.quantities);
    (answer.value, answer.board.lines().map(|line| line.set).collect())
}

#[test]
fn common_tip_counts_placements() {
    let board = closed(3, &[(&[0], 2), (&[0, 1], 1), (&[1, 2], 3)]);
    // Tip 0 has two lines of 3 placements, tip 1 two of 4, tip 2 one of 3.
    let common = accepted(board.common_tip()).value;
    assert_eq!(common, CommonTip { top: 4, off: 2, tips: 0b010 });
}

#[test]
fn keep_strikes_above_margin_zero() {
    let board = closed(2, &[(&[0], 5), (&[0, 1], 3), (&[1], 1)]);
    // With {0,1} on tip 1 the 5 of {0} are on tip 0 and 4 are off.
    assert_eq!(board.clone().keep_within(0).number, refusal::NO_PLAN);
    assert_eq!(kept(&board, 1), (0, vec![0b01, 0b01, 0b10]));
    assert_eq!(kept(&board, 2), (1, vec![0b01, 0b01, 0b10]));
    assert_eq!(kept(&board, 3), (2, vec![0b01, 0b01, 0b10]));
    assert_eq!(kept(&board, 4), (3, vec![0b01, 0b11, 0b10]));
}

#[test]
fn keep_goes_by_all_tips_that_reach_and_not_by_the_common_ones() {
    // Tip 0 can take 7, tip 1 can take 6, tip 2 can take 4, of 9 placements.
    let board = closed(3, &[(&[0, 1, 2], 4), (&[0], 3), (&[1], 2)]);
    assert_eq!(accepted(board.clone().common_tip()).value, CommonTip { top: 7, off: 2, tips: 0b001 });
    assert_eq!(kept(&board, 2), (0, vec![0b001, 0b001, 0b010]));
    // With 3 off tip 1 reaches too, so the first line keeps it, and tip 2 is struck.
    assert_eq!(kept(&board, 3), (1, vec![0b011, 0b001, 0b010]));
    assert_eq!(kept(&board, 4), (2, vec![0b011, 0b001, 0b010]));
    assert_eq!(kept(&board, 5), (3, vec![0b111, 0b001, 0b010]));
}

#[test]
fn quick_takes_the_tip_of_most_placements() {
    let lines: [(&[usize], u8); 4] = [(&[0], 1), (&[0], 1), (&[1], 3), (&[0, 1], 1)];
    assert_eq!(quick(&closed(2, &lines)), (vec![0, 0, 1, 1], 7));
    // By lines it is tip 0.
    let single = lines.map(|(tips, _)| (tips, 1));
    assert_eq!(quick(&closed(2, &single)), (vec![0, 0, 1, 0], 3));
}

#[test]
fn best_weighs_placements() {
    let board = closed(3, &[(&[0], 1), (&[0, 1], 2), (&[1, 2], 2), (&[2], 3)]);
    // Tips 0 and 2: 3 + 5 placements, 3 + 10 pairs. Tip 1 takes 4, and then 1 and 3 stay: 6 + 0 + 3.
    let table = vec![0, 3, 13, 0, 0, 10, 0, 0, 3];
    assert_eq!(best(&board), (vec![0, 0, 2, 2], 13, table));
}

#[test]
fn placements_of_a_line_are_pairs() {
    let one = closed(3, &[(&[1, 2], 255)]);
    assert_eq!(quick(&one), (vec![1], 32_385));
    assert_eq!(best(&one), (vec![1], 32_385, vec![0, 0, 32_385, 0, 0, 32_385, 0, 0, 0]));
    let most = Board::of_lines(1, &[Line { set: 1, quantity: 4 }; 512]);
    assert_eq!(quick(&most), (vec![0; 512], 2_096_128));
    assert_eq!(best(&most), (vec![0; 512], 2_096_128, vec![2_096_128]));
}

#[test]
fn report_counts_lines_first_and_then_placements() {
    let board = closed(2, &[(&[0], 1), (&[0], 1), (&[1], 3), (&[0, 1], 1)]);
    let text = "lines 4 rack 2\noff 2 tips 1\nquick 7\nbest 7\n\
                line 0 quick 0 best 0\nline 1 quick 0 best 0\nline 2 quick 1 best 1\nline 3 quick 1 best 1\n";
    assert_eq!(String::from_utf8(report(&board.file())).unwrap(), text);
}
