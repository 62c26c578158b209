//! Exact sharing: rows worked out by hand, and its refusals.

use second::interface::{self, NO_TIP};
use second::{refusal, Board, Exact, Line, Stage};

/// The closed board of these lines, tips and quantity.
fn closed(rack: usize, lines: &[(&[usize], u8)]) -> Board {
    let set = |tips: &[usize]| tips.iter().fold(0, |set, tip| set | 1 << tip);
    let lines: Vec<Line> = lines.iter().map(|&(tips, quantity)| Line { set: set(tips), quantity }).collect();
    Board::of_lines(rack, &lines)
}

/// Plan, pairs, tips and the used part of the table; nothing is written behind plan and table.
fn exact(board: &Board, mounted: Option<usize>, price: u32) -> (Vec<u8>, u32, u32, Vec<u32>) {
    let places = 2 << board.named_tips().count_ones();
    let (mut plan, mut table) = (vec![0xA5; board.count + 3], vec![0xA5A5_A5A5; places + 2]);
    let answer = board.clone().exact(mounted, price, &mut plan, &mut table);
    assert_eq!((answer.number, answer.place, &answer.board), (0, 0, board));
    assert_eq!((plan.split_off(board.count), table.split_off(places)), (vec![0xA5; 3], vec![0xA5A5_A5A5; 2]));
    (plan, answer.value.pairs, answer.value.tips, table)
}

/// The plan alone, with its pairs and tips.
fn planned(board: &Board, mounted: Option<usize>, price: u32) -> (Vec<u8>, u32, u32) {
    let (plan, pairs, tips, _) = exact(board, mounted, price);
    (plan, pairs, tips)
}

#[test]
fn lines_that_are_no_runs_have_the_most_pairs() {
    // Quick sharing takes tip 0 first and has one pair.
    let board = closed(3, &[(&[1], 1), (&[2], 1), (&[0, 1], 1), (&[0, 2], 1)]);
    let within = [0, 0, 1, 2, 1, 2, 2, 4];
    let scores = [0, 0, 0, 1, 0, 1, 0, 2];
    for mounted in [None, Some(0), Some(1), Some(2)] {
        assert_eq!(exact(&board, mounted, 0), (vec![1, 2, 1, 2], 2, 2, [within, scores].concat()));
    }
    // Tip 0 is without a line then, which is worth its price.
    let scores = [0, 1, 0, 2, 0, 2, 0, 3];
    assert_eq!(exact(&board, None, 1), (vec![1, 2, 1, 2], 2, 2, [within, scores].concat()));
}

#[test]
fn price_decides_between_pairs_and_tips() {
    // Three tips with 10 pairs, or two with 6 and 3.
    let board = closed(3, &[(&[0, 1], 3), (&[0, 2], 2), (&[1], 1), (&[2], 1)]);
    let within = [0, 0, 1, 4, 1, 3, 2, 7];
    let (three, two) = (vec![0, 0, 1, 2], vec![1, 2, 1, 2]);
    assert_eq!(exact(&board, None, 0), (three.clone(), 10, 3, [within, [0, 0, 0, 6, 0, 3, 0, 10]].concat()));
    // With price 1 both are worth 7, and each of the three tips can be taken first.
    let scores = [0, 1, 0, 7, 0, 4, 0, 10];
    for (mounted, plan, pairs, tips) in
        [(None, &three, 10, 3), (Some(0), &three, 10, 3), (Some(1), &two, 9, 2), (Some(2), &two, 9, 2)]
    {
        assert_eq!(exact(&board, mounted, 1), (plan.clone(), pairs, tips, [within, scores].concat()));
    }
    assert_eq!(exact(&board, None, 2), (two.clone(), 9, 2, [within, [0, 2, 0, 8, 0, 5, 0, 11]].concat()));
    // A price above 2,096,129 counts as that.
    let most = 2_096_129;
    let scores = [0, most, 0, most + 6, 0, most + 3, 0, most + 9];
    for price in [most, most + 1, 1 << 31, u32::MAX] {
        assert_eq!(exact(&board, Some(0), price), (two.clone(), 9, 2, [within, scores].concat()));
    }
    let scores = [0, most - 1, 0, most + 5, 0, most + 2, 0, most + 8];
    assert_eq!(exact(&board, None, most - 1), (two, 9, 2, [within, scores].concat()));
}

#[test]
fn mounted_tip_wins_a_tie_alone() {
    let board = closed(5, &[(&[1, 3, 4], 1)]);
    for (mounted, tip) in [(None, 1), (Some(0), 1), (Some(1), 1), (Some(2), 1), (Some(3), 3), (Some(4), 4)] {
        assert_eq!(planned(&board, mounted, 0), (vec![tip], 0, 1));
    }
    // Tip 3 has one placement, and tip 1 two.
    let board = closed(5, &[(&[1, 3], 1), (&[1], 1)]);
    assert_eq!(planned(&board, Some(3), 0), (vec![1, 1], 1, 1));
    // With a price the tips without a line are taken first, where they are lower.
    assert_eq!(planned(&closed(3, &[(&[0, 1, 2], 1)]), None, 5), (vec![0], 0, 1));
    assert_eq!(planned(&closed(3, &[(&[0, 1, 2], 1)]), Some(2), 5), (vec![2], 0, 1));
}

#[test]
fn bits_are_the_named_tips_from_the_lowest() {
    // Tip 5 is bit 0, and tip 63 bit 1.
    let board = closed(64, &[(&[5, 63], 2), (&[63], 3)]);
    assert_eq!(exact(&board, None, 0), (vec![63, 63], 10, 1, vec![0, 0, 3, 5, 0, 0, 3, 10]));
    assert_eq!(exact(&board, None, 4), (vec![63, 63], 10, 1, vec![0, 0, 3, 5, 0, 4, 3, 14]));
}

#[test]
fn boards_without_lines_need_two_places() {
    for price in [0, u32::MAX] {
        assert_eq!(exact(&closed(64, &[]), Some(63), price), (vec![], 0, 0, vec![0, 0]));
    }
    let answer = closed(64, &[]).exact(None, 0, &mut [], &mut [7]);
    assert_eq!((answer.number, answer.value), (5, Exact::default()));
}

#[test]
fn most_placements_and_most_tips() {
    let most = closed(1, &[[(&[0][..], 255); 8].as_slice(), &[(&[0], 8)]].concat());
    assert_eq!(exact(&most, None, u32::MAX), (vec![0; 9], 2_096_128, 1, vec![0, 2048, 0, 2_096_128]));
    // Twenty tips with a line each, and one more line with all of them.
    let sets: Vec<u64> = (0..20).map(|tip| 1 << (3 * tip)).collect();
    let all = sets.iter().fold(0, |all, set| all | set);
    let board = Board::of_sets(64, &[&sets[..], &[all]].concat());
    let (plan, pairs, tips, table) = exact(&board, Some(57), 9);
    let alone: Vec<u8> = (0..20).map(|tip| 3 * tip).collect();
    assert_eq!((&plan[..20], plan[20], pairs, tips), (&alone[..], 57, 1, 20));
    assert_eq!((table[(1 << 20) - 2], table[(1 << 20) - 1], table[(2 << 20) - 1]), (19, 21, 1));
}

#[test]
fn refusals_in_their_order() {
    let sound = closed(3, &[(&[0], 1), (&[1, 2], 1)]);
    let with = |set: u64, place: usize| {
        let mut board = sound.clone();
        board.sets[place] = set;
        board
    };
    let refused = |board: &Board, mounted: Option<usize>, lent: [usize; 2]| {
        let (mut plan, mut table) = (vec![7; lent[0]], vec![7; lent[1]]);
        let answer = board.clone().exact(mounted, 1, &mut plan, &mut table);
        assert_eq!((answer.value, &answer.board), (Exact::default(), board));
        assert_eq!((plan, table), (vec![7; lent[0]], vec![7; lent[1]]));
        (answer.number, answer.place)
    };
    for (board, number, place) in [
        (Board { rack: 0, ..sound.clone() }, refusal::UNSOUND_BOARD, 0),
        (with(0, 1), refusal::UNSOUND_LINE, 1),
        (with(1, 2), refusal::HELD_BEHIND, 2),
        (Board { stage: Stage::Open, ..sound.clone() }, refusal::BOARD_OPEN, 0),
    ] {
        assert_eq!(refused(&board, Some(3), [0, 0]), (number, place));
        assert_eq!(refused(&board, None, [2, 16]), (number, place));
    }
    let many = Board::of_sets(21, &[(1 << 21) - 1]);
    for board in [&sound, &many] {
        for mounted in [21, 64, 256, 1 << 32, usize::MAX] {
            assert_eq!(refused(board, Some(mounted), [0, 0]), (refusal::MOUNTED_OUTSIDE, 0));
        }
        assert_eq!(refused(board, None, [0, 0]), (refusal::SHORT_PLAN, 0));
    }
    for places in [0, 15, 16, 2 << 21] {
        assert_eq!(refused(&many, Some(20), [1, places]), (refusal::TOO_MANY_NAMED, 0));
    }
    for places in [0, 8, 15] {
        assert_eq!(refused(&sound, None, [2, places]), (refusal::SHORT_TABLE, 0));
    }
    // Tips that no line names do not count.
    let spread = Board::of_sets(64, &[1, 1 << 63]);
    assert_eq!(refused(&spread, None, [2, 7]), (refusal::SHORT_TABLE, 0));
    assert_eq!(planned(&spread, None, 0), (vec![0, 63], 0, 2));
}

#[test]
fn numbers_of_the_interface() {
    let file = closed(3, &[(&[0, 1], 3), (&[0, 2], 2), (&[1], 1), (&[2], 1)]).file();
    for (mounted, price, tips, pairs, used) in [
        (NO_TIP, 0, [0, 0, 1, 2], 10, 3),
        (NO_TIP, 1, [0, 0, 1, 2], 10, 3),
        (2, 1, [1, 2, 1, 2], 9, 2),
        (0, u32::MAX, [1, 2, 1, 2], 9, 2),
    ] {
        let (mut plan, mut table, mut answer) = ([7; 5], [7; 17], [9; 5]);
        assert_eq!(interface::exact(&file, mounted, price, &mut plan, &mut table, &mut answer), 0);
        assert_eq!((&plan[..4], plan[4], table[7], table[16], answer), (&tips[..], 7, 7, 7, [0, pairs, used, 0, 9]));
    }
    let refused = |file: &[u8], mounted: usize, lent: [usize; 2]| {
        let (mut plan, mut table, mut answer) = (vec![7; lent[0]], vec![7; lent[1]], [9; 5]);
        let number = interface::exact(file, mounted, 0, &mut plan, &mut table, &mut answer);
        assert_eq!((plan, table, &answer[1..]), (vec![7; lent[0]], vec![7; lent[1]], &[0, 0, 0, 9][..]));
        (number, answer[0])
    };
    assert_eq!(refused(&file[..7], 3, [0, 0]), (refusal::SHORT_FILE, 0));
    for mounted in [3, 64, 255, 256, 1 << 32, NO_TIP - 1] {
        assert_eq!(refused(&file, mounted, [0, 0]), (refusal::MOUNTED_OUTSIDE, 0));
    }
    assert_eq!(refused(&file, NO_TIP, [3, 16]), (refusal::SHORT_PLAN, 0));
    assert_eq!(refused(&file, NO_TIP, [4, 15]), (refusal::SHORT_TABLE, 0));
    for short in 0..4 {
        let mut answer = vec![9; short];
        assert_eq!(interface::exact(&file[..7], 3, 0, &mut [], &mut [], &mut answer), refusal::SHORT_ANSWER);
        assert_eq!(answer, vec![9; short]);
    }
}
