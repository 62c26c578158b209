//! Plans along the list: rows worked out by hand, and its refusals.

use second::interface::{self, NO_TIP};
use second::{refusal, Along, Board, Line, Stage};

/// The closed board of these lines, tips and quantity.
fn closed(rack: usize, lines: &[(&[usize], u8)]) -> Board {
    let set = |tips: &[usize]| tips.iter().fold(0, |set, tip| set | 1 << tip);
    let lines: Vec<Line> = lines.iter().map(|&(tips, quantity)| Line { set: set(tips), quantity }).collect();
    Board::of_lines(rack, &lines)
}

/// The closed board of lines with these tips, each of quantity 1.
fn single(rack: usize, lines: &[&[usize]]) -> Board {
    let lines: Vec<(&[usize], u8)> = lines.iter().map(|&tips| (tips, 1)).collect();
    closed(rack, &lines)
}

/// Plan, changes and pairs; nothing is written behind the plan.
fn along(board: &Board, mounted: Option<usize>) -> (Vec<u8>, u32, u32) {
    let mut plan = vec![0xA5; board.count + 3];
    let answer = board.clone().along(mounted, &mut plan);
    assert_eq!((answer.number, answer.place, &answer.board), (0, 0, board));
    assert_eq!(plan.split_off(board.count), [0xA5; 3]);
    (plan, answer.value.changes, answer.value.pairs)
}

#[test]
fn tip_stays_as_long_as_it_serves() {
    // Tip 3 serves the first three lines, and no tip serves four.
    let board = single(6, &[&[1, 2, 3], &[2, 3], &[3, 4], &[4], &[4, 5]]);
    assert_eq!(along(&board, None), (vec![3, 3, 3, 4, 4], 1, 4));
    assert_eq!(along(&board, Some(3)), (vec![3, 3, 3, 4, 4], 1, 4));
    // Tip 1 serves one line, and then tip 3 two more; tip 2 serves two lines, and then tip 3 or 4 the third.
    assert_eq!(along(&board, Some(1)), (vec![1, 3, 3, 4, 4], 2, 2));
    assert_eq!(along(&board, Some(2)), (vec![2, 2, 4, 4, 4], 1, 4));
    // A tip that does not serve the first line is changed before it.
    for mounted in [0, 4, 5] {
        assert_eq!(along(&board, Some(mounted)), (vec![3, 3, 3, 4, 4], 2, 4));
    }
}

#[test]
fn lowest_tip_that_serves_a_whole_segment() {
    let board = single(3, &[&[1, 2], &[0, 1, 2], &[0]]);
    assert_eq!(along(&board, None), (vec![1, 1, 0], 1, 1));
    assert_eq!(along(&board, Some(0)), (vec![1, 1, 0], 2, 1));
    assert_eq!(along(&board, Some(1)), (vec![1, 1, 0], 1, 1));
    assert_eq!(along(&board, Some(2)), (vec![2, 2, 0], 1, 1));
    // The lowest of the last segment too.
    assert_eq!(along(&single(64, &[&[5], &[62, 63]]), None), (vec![5, 62], 1, 0));
    assert_eq!(along(&single(64, &[&[5], &[62, 63], &[63]]), None), (vec![5, 63, 63], 1, 1));
}

#[test]
fn order_of_the_list_counts() {
    assert_eq!(along(&single(2, &[&[0], &[1], &[0], &[1]]), None), (vec![0, 1, 0, 1], 3, 2));
    assert_eq!(along(&single(2, &[&[0], &[0], &[1], &[1]]), None), (vec![0, 0, 1, 1], 1, 2));
    assert_eq!(along(&single(2, &[&[0], &[1], &[0], &[1]]), Some(1)), (vec![0, 1, 0, 1], 4, 2));
}

#[test]
fn pairs_are_counted_in_placements() {
    // 2 placements on tip 0, and 3 and 1 on tip 2: 1 and 6 pairs.
    assert_eq!(along(&closed(3, &[(&[0], 2), (&[1, 2], 3), (&[2], 1)]), None), (vec![0, 2, 2], 1, 7));
    // All on one tip.
    let most = closed(1, &[(&[0][..], 255); 8].iter().copied().chain([(&[0][..], 8)]).collect::<Vec<_>>());
    assert_eq!(along(&most, None), (vec![0; 9], 0, 2_096_128));
}

#[test]
fn boards_without_lines_have_no_change() {
    for mounted in [None, Some(0), Some(63)] {
        assert_eq!(along(&single(64, &[]), mounted), (vec![], 0, 0));
    }
}

#[test]
fn every_line_can_be_a_change() {
    let sets: Vec<u64> = (0..512).map(|line| 1 << (line % 64)).collect();
    let tips: Vec<u8> = (0..512).map(|line| (line % 64) as u8).collect();
    // 8 lines on each of 64 tips, 28 pairs each.
    assert_eq!(along(&Board::of_sets(64, &sets), None), (tips.clone(), 511, 1792));
    assert_eq!(along(&Board::of_sets(64, &sets), Some(1)), (tips, 512, 1792));
}

#[test]
fn refusals_in_their_order() {
    let sound = single(3, &[&[0], &[1, 2]]);
    let with = |set: u64, place: usize| {
        let mut board = sound.clone();
        board.sets[place] = set;
        board
    };
    let boards = [
        (Board { rack: 0, ..sound.clone() }, refusal::UNSOUND_BOARD, 0),
        (with(0, 1), refusal::UNSOUND_LINE, 1),
        (with(1, 2), refusal::HELD_BEHIND, 2),
        (Board { stage: Stage::Open, ..sound.clone() }, refusal::BOARD_OPEN, 0),
    ];
    let refused = |board: &Board, mounted: Option<usize>, lent: usize| {
        let mut plan = vec![7; lent];
        let answer = board.clone().along(mounted, &mut plan);
        assert_eq!((answer.value, &answer.board, plan), (Along::default(), board, vec![7; lent]));
        (answer.number, answer.place)
    };
    for (board, number, place) in boards {
        for (mounted, lent) in [(None, 2), (Some(3), 0), (Some(usize::MAX), 1)] {
            assert_eq!(refused(&board, mounted, lent), (number, place));
        }
    }
    for mounted in [3, 64, 256, 1 << 32, usize::MAX] {
        for lent in [0, 1, 2, 512] {
            assert_eq!(refused(&sound, Some(mounted), lent), (refusal::MOUNTED_OUTSIDE, 0));
        }
    }
    for lent in [0, 1] {
        assert_eq!(refused(&sound, None, lent), (refusal::SHORT_PLAN, 0));
        assert_eq!(refused(&sound, Some(2), lent), (refusal::SHORT_PLAN, 0));
    }
}

#[test]
fn numbers_of_the_interface() {
    let file = closed(3, &[(&[0], 2), (&[1, 2], 3), (&[2], 1)]).file();
    for (mounted, tips, changes) in [(NO_TIP, [0, 2, 2], 1), (0, [0, 2, 2], 1), (1, [0, 2, 2], 2)] {
        let (mut plan, mut answer) = ([7; 4], [9; 5]);
        assert_eq!(interface::along(&file, mounted, &mut plan, &mut answer), 0);
        assert_eq!((&plan[..3], plan[3], answer), (&tips[..], 7, [0, changes, 7, 0, 9]));
    }
    let refused = |file: &[u8], mounted: usize, lent: usize| {
        let (mut plan, mut answer) = (vec![7; lent], [9; 5]);
        let number = interface::along(file, mounted, &mut plan, &mut answer);
        assert_eq!((plan, answer[1..].to_vec()), (vec![7; lent], vec![0, 0, 0, 9]));
        (number, answer[0])
    };
    // The file is read before anything else.
    assert_eq!(refused(&file[..7], 3, 0), (refusal::SHORT_FILE, 0));
    let mut empty_line = file.clone();
    empty_line[24] = 0;
    assert_eq!(refused(&empty_line, 3, 0), (refusal::EMPTY_LINE, 1));
    for mounted in [3, 64, 255, 256, 1 << 32, NO_TIP - 1] {
        assert_eq!(refused(&file, mounted, 0), (refusal::MOUNTED_OUTSIDE, 0));
    }
    assert_eq!(refused(&file, NO_TIP, 2), (refusal::SHORT_PLAN, 0));
    for short in 0..4 {
        let mut answer = vec![9; short];
        assert_eq!(interface::along(&file[..7], 3, &mut [], &mut answer), refusal::SHORT_ANSWER);
        assert_eq!(answer, vec![9; short]);
    }
}
