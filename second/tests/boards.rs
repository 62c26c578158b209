//! The boards B1 to B14 of the rules, and the printed example.

use second::{pairs_in, read, refusal, report, Answer, Board, CommonTip, LONGEST_FILE};

/// The set of the given tips.
fn set(tips: &[usize]) -> u64 {
    tips.iter().fold(0, |set, tip| set | 1 << tip)
}

/// The closed board of these lines, built by open, add and close.
fn closed(rack: usize, lines: &[&[usize]]) -> Board {
    let mut board = accepted(Board::open(rack)).board;
    for tips in lines {
        board = accepted(board.add(set(tips), 1)).board;
    }
    accepted(board.close()).board
}

fn accepted<T>(answer: Answer<T>) -> Answer<T> {
    assert_eq!((answer.number, answer.place), (0, 0));
    answer
}

fn figure_of_002() -> Board {
    closed(9, &[&[1, 2, 3], &[3, 4, 5, 6, 7], &[0, 1, 2, 3, 4, 5, 6, 7, 8], &[5, 6]])
}

fn four_lines() -> Board {
    closed(3, &[&[1], &[2], &[0, 1], &[0, 2]])
}

fn ten_lines() -> Board {
    closed(3, &[&[0], &[0], &[0, 1], &[0, 1], &[0, 1], &[1, 2], &[1, 2], &[1, 2], &[2], &[2]])
}

/// Quick sharing on a longer plan buffer, of which only the lines may change.
fn quick(board: Board) -> (Vec<u8>, u32) {
    let count = board.count;
    let mut plan = vec![0xA5; count + 3];
    let answer = accepted(board.clone().quick(None, &mut plan));
    assert_eq!(answer.board, board);
    assert_eq!(plan[count..], [0xA5; 3]);
    plan.truncate(count);
    assert_eq!(pairs_in(&plan), answer.value);
    (plan, answer.value)
}

/// Best sharing on longer buffers, of which only the lines and the stretches may change.
fn best(board: Board) -> (Vec<u8>, u32, Vec<u32>) {
    let count = board.count;
    let places = board.rack * board.rack;
    let mut plan = vec![0xA5; count + 3];
    let mut table = vec![0xA5A5_A5A5; places + 3];
    let answer = accepted(board.clone().best(None, &mut plan, &mut table));
    assert_eq!(answer.board, board);
    assert_eq!(plan[count..], [0xA5; 3]);
    assert_eq!(table[places..], [0xA5A5_A5A5; 3]);
    plan.truncate(count);
    table.truncate(places);
    assert_eq!(pairs_in(&plan), answer.value);
    (plan, answer.value, table)
}

#[test]
fn b1_common_tip_and_keep_at_margin_zero() {
    let board = figure_of_002();
    let common = accepted(board.clone().common_tip());
    assert_eq!(common.value, CommonTip { top: 3, off: 1, tips: set(&[3, 5, 6]) });
    assert_eq!(common.board, board);
    let kept = accepted(board.keep_within(1));
    assert_eq!(kept.value, 0);
    assert_eq!(kept.board, closed(9, &[&[1, 2, 3], &[3, 5, 6], &[3, 5, 6], &[5, 6]]));
}

#[test]
fn b2_keep_below_the_margin() {
    let kept = figure_of_002().keep_within(0);
    assert_eq!((kept.number, kept.place, kept.value), (26, 0, -1));
    assert_eq!(kept.board, figure_of_002());
}

#[test]
fn b3_keep_above_the_margin() {
    let kept = accepted(figure_of_002().keep_within(2));
    assert_eq!(kept.value, 1);
    assert_eq!(kept.board, figure_of_002());
}

#[test]
fn b4_quick_reaches_half() {
    assert_eq!(quick(four_lines()), (vec![1, 2, 0, 0], 1));
    assert_eq!(second::try_every_plan(&four_lines()).most_pairs, 2);
}

#[test]
fn b5_best_needs_runs() {
    let mut plan = [7; 4];
    let mut table = [7; 9];
    let answer = four_lines().best(None, &mut plan, &mut table);
    assert_eq!((answer.number, answer.place, answer.value), (25, 3, 0));
    assert_eq!(answer.board, four_lines());
    assert_eq!((plan, table), ([7; 4], [7; 9]));
}

#[test]
fn b6_best_with_its_table() {
    let board = closed(3, &[&[0], &[2], &[0, 1], &[1, 2]]);
    assert_eq!(best(board), (vec![0, 2, 0, 2], 2, vec![0, 1, 2, 0, 0, 1, 0, 0, 0]));
}

#[test]
fn b7_quick_takes_the_middle_tip() {
    assert_eq!(quick(ten_lines()), (vec![0, 0, 1, 1, 1, 1, 1, 1, 2, 2], 17));
}

#[test]
fn b8_best_leaves_the_middle_tip() {
    let (plan, pairs, _) = best(ten_lines());
    assert_eq!((plan, pairs), (vec![0, 0, 0, 0, 0, 2, 2, 2, 2, 2], 20));
}

#[test]
fn b9_lowest_tip_on_a_tie() {
    let board = closed(3, &[&[1, 2]]);
    assert_eq!(quick(board.clone()), (vec![1], 0));
    let (plan, pairs, _) = best(board);
    assert_eq!((plan, pairs), (vec![1], 0));
}

#[test]
fn b10_best_without_lines() {
    assert_eq!(best(closed(1, &[])), (vec![], 0, vec![0]));
}

#[test]
fn b11_margin_with_k_above_the_lines() {
    let kept = accepted(closed(1, &[&[0]]).keep_within(5));
    assert_eq!(kept.value, 5);
    assert_eq!(kept.board, closed(1, &[&[0]]));
}

#[test]
fn b12_rack_sizes() {
    for (rack, number) in [(0, 1), (1, 0), (64, 0), (65, 1), (usize::MAX, 1)] {
        let answer = Board::open(rack);
        assert_eq!((answer.number, answer.place), (number, 0));
        let rack = if number == 0 { rack } else { 1 };
        let expected = Board { rack, stage: second::Stage::Open, count: 0, sets: [0; 512], quantities: [0; 512] };
        assert_eq!(answer.board, expected);
    }
}

#[test]
fn b13_tip_outside_the_rack() {
    let board = Board::open(3).board;
    let refused = board.clone().add(set(&[3]), 1);
    assert_eq!((refused.number, refused.place), (refusal::TIP_OUTSIDE, 0));
    assert_eq!(refused.board, board);
    let added = accepted(board.add(set(&[2]), 7)).board;
    assert_eq!((added.count, added.sets[0], added.quantities[0]), (1, 4, 7));
}

#[test]
fn b14_line_512_and_513() {
    let mut board = Board::open(64).board;
    for line in 0..512 {
        board = accepted(board.add(1 << (line % 64), 1)).board;
    }
    assert_eq!(board.count, 512);
    assert_eq!(board.sets[511], 1 << 63);
    for (set, quantity) in [(1, 1), (0, 1), (u64::MAX, 1), (1, 0)] {
        let answer = board.clone().add(set, quantity);
        assert_eq!((answer.number, answer.place), (refusal::TOO_MANY_LINES, 0));
        assert_eq!(answer.board, board);
    }
}

#[test]
fn printed_example() {
    let mut file = vec![0; 24];
    file[..8].copy_from_slice(&[0x54, 0x49, 0x50, 0x00, 0x01, 0x03, 0x00, 0x02]);
    file[15] = 0x01;
    file[23] = 0x06;
    assert_eq!(read(&file).board, closed(3, &[&[0], &[1, 2]]));
    let expected = "lines 2 rack 3\noff 1 tips 0 1 2\nquick 0\nbest 0\nline 0 quick 0 best 0\nline 1 quick 1 best 1\n";
    assert_eq!(String::from_utf8(report(&file)).unwrap(), expected);
}

#[test]
fn report_without_runs_without_lines_and_refused() {
    let mut file = [0; 40];
    let answer = accepted(four_lines().write(&mut file));
    assert_eq!(answer.value, 40);
    let expected = "lines 4 rack 3\noff 2 tips 0 1 2\nquick 1\nbest none\n\
                    line 0 quick 1 best -\nline 1 quick 2 best -\nline 2 quick 0 best -\nline 3 quick 0 best -\n";
    assert_eq!(String::from_utf8(report(&file)).unwrap(), expected);
    assert_eq!(report(b"TIP\x00\x01\x40\x00\x00"), b"lines 0 rack 64\noff 0 tips\nquick 0\nbest 0\n");
    assert_eq!(report(&file[..39]), b"refused 10\n");
    assert_eq!(report(b""), b"refused 6\n");
}

#[test]
fn longest_report_and_longest_input() {
    for (quantity, length, pairs) in [(1, 4104, 130_816), (4, 4616, 2_096_128)] {
        let mut board = Board::open(64).board;
        for _ in 0..512 {
            board = accepted(board.add(u64::MAX << 63, quantity)).board;
        }
        let mut file = vec![0; 5000];
        assert_eq!(accepted(accepted(board.close()).board.write(&mut file)).value, length);
        let text = String::from_utf8(report(&file[..length])).unwrap();
        let head = format!("lines 512 rack 64\noff 0 tips 63\nquick {pairs}\nbest {pairs}\n");
        assert!(text.starts_with(&head));
        assert!(text.ends_with("line 511 quick 63 best 63\n"));
        assert!(text.len() <= second::interface::REPORT_SPACE);
        for longer in [length + 1, length + 2, 5000] {
            assert_eq!(report(&file[..longer]), b"refused 10\n");
        }
    }
}

#[test]
fn report_takes_one_byte_more_than_the_longest_file() {
    let longest = Board::of_lines(64, &[second::Line { set: 1, quantity: 4 }; 512]).file();
    assert_eq!((longest.len(), second::LONGEST_INPUT), (LONGEST_FILE, 4617));
    // A byte that is not taken could not be refused.
    for more in [1, 2, 9, 10_000] {
        let file = [&longest[..], &vec![0; more]].concat();
        assert_eq!(report(&file), b"refused 10\n");
    }
}
