//! A mounted tip wins a tie: rows worked out by hand, and where its refusal stands.

use second::interface::{self, NO_TIP};
use second::{refusal, Board, Line, Stage};

/// The closed board of these lines, tips and quantity.
fn closed(rack: usize, lines: &[(&[usize], u8)]) -> Board {
    let set = |tips: &[usize]| tips.iter().fold(0, |set, tip| set | 1 << tip);
    let lines: Vec<Line> = lines.iter().map(|&(tips, quantity)| Line { set: set(tips), quantity }).collect();
    Board::of_lines(rack, &lines)
}

/// Plan and pairs of quick sharing.
fn quick(board: &Board, mounted: Option<usize>) -> (Vec<u8>, u32) {
    let mut plan = vec![0xA5; board.count];
    let answer = board.clone().quick(mounted, &mut plan);
    assert_eq!((answer.number, answer.place, &answer.board), (0, 0, board));
    (plan, answer.value)
}

/// Plan and pairs of best sharing, whose table is the one without a mounted tip.
fn best(board: &Board, mounted: Option<usize>) -> (Vec<u8>, u32) {
    let mut plan = vec![0xA5; board.count];
    let mut tables = [vec![0xA5A5_A5A5; board.rack * board.rack], vec![0x5A5A_5A5A; board.rack * board.rack]];
    board.clone().best(None, &mut plan, &mut tables[0]);
    let answer = board.clone().best(mounted, &mut plan, &mut tables[1]);
    assert_eq!((answer.number, answer.place, &answer.board), (0, 0, board));
    assert_eq!(tables[0], tables[1]);
    (plan, answer.value)
}

#[test]
fn mounted_tip_wins_a_tie() {
    let board = closed(3, &[(&[1, 2], 1)]);
    for (mounted, tip) in [(None, 1), (Some(0), 1), (Some(1), 1), (Some(2), 2)] {
        assert_eq!(quick(&board, mounted), (vec![tip], 0));
        assert_eq!(best(&board, mounted), (vec![tip], 0));
    }
}

#[test]
fn mounted_tip_may_change_the_pairs_of_quick_sharing() {
    // Each tip can take two lines. Tip 0 first leaves {1} and {2}; tip 1 or tip 2 first leaves two lines for the other.
    let more = closed(3, &[(&[1], 1), (&[2], 1), (&[0, 1], 1), (&[0, 2], 1)]);
    for (mounted, plan, pairs) in [(None, [1, 2, 0, 0], 1), (Some(0), [1, 2, 0, 0], 1)] {
        assert_eq!(quick(&more, mounted), (plan.to_vec(), pairs));
    }
    for mounted in [Some(1), Some(2)] {
        assert_eq!(quick(&more, mounted), (vec![1, 2, 1, 2], 2));
    }
    // The same lines with tip 2 in the place of tip 0: now the mounted tip is the one that costs a pair.
    let fewer = closed(3, &[(&[0], 1), (&[1], 1), (&[0, 2], 1), (&[1, 2], 1)]);
    assert_eq!(quick(&fewer, None), (vec![0, 1, 0, 1], 2));
    assert_eq!(quick(&fewer, Some(2)), (vec![0, 1, 2, 2], 1));
}

#[test]
fn mounted_tip_leaves_the_pairs_of_best_sharing() {
    // Tip 1 first takes two lines, and two single ones are left; best sharing has one pair on tip 0 and one on tip 2.
    let board = closed(3, &[(&[0], 1), (&[2], 1), (&[0, 1], 1), (&[1, 2], 1)]);
    assert_eq!((quick(&board, None), best(&board, None)), ((vec![0, 2, 0, 2], 2), (vec![0, 2, 0, 2], 2)));
    assert_eq!((quick(&board, Some(1)), best(&board, Some(1))), ((vec![0, 2, 1, 1], 1), (vec![0, 2, 0, 2], 2)));
}

#[test]
fn mounted_tip_is_chosen_in_every_round_and_only_on_a_tie() {
    // Tip 0 takes three first; then {1,2} is a tie, and in the last board tip 1 takes two before tip 2 can.
    let lines: [(&[usize], u8); 3] = [(&[0], 2), (&[0, 2], 1), (&[1, 2], 1)];
    assert_eq!(quick(&closed(3, &lines), None), (vec![0, 0, 1], 3));
    assert_eq!(quick(&closed(3, &lines), Some(2)), (vec![0, 0, 2], 3));
    let lines = [&lines[..], &[(&[1], 1)]].concat();
    assert_eq!(quick(&closed(3, &lines), Some(2)), (vec![0, 0, 1, 1], 4));
}

#[test]
fn mounted_tip_is_chosen_in_every_stretch_and_only_on_a_tie() {
    // Tip 1 takes five and 10 pairs, tip 2 and tip 3 would make 7; within 2 to 3 both have 0.
    let board = closed(4, &[(&[1, 2, 3], 3), (&[1], 2), (&[2, 3], 1)]);
    assert_eq!(best(&board, None), (vec![1, 1, 2], 10));
    assert_eq!(best(&board, Some(3)), (vec![1, 1, 3], 10));
    // In the whole rack: tip 3 has no pair of its own, and leaves as many on its left.
    let board = closed(4, &[(&[0], 2), (&[2, 3], 1)]);
    assert_eq!(best(&board, None), (vec![0, 2], 1));
    assert_eq!(best(&board, Some(3)), (vec![0, 3], 1));
}

#[test]
fn mounted_tip_that_no_line_names_is_never_chosen() {
    // Its split would be as large, and lay no line.
    let board = closed(5, &[(&[2, 4], 1)]);
    for mounted in [0, 1, 3] {
        assert_eq!(quick(&board, Some(mounted)), (vec![2], 0));
        assert_eq!(best(&board, Some(mounted)), (vec![2], 0));
    }
    assert_eq!(best(&board, Some(4)), (vec![4], 0));
    assert_eq!(best(&closed(3, &[]), Some(2)), (vec![], 0));
}

/// Numbers of no tip of the rack.
fn outside(rack: usize) -> [usize; 7] {
    [rack, rack + 1, 64, 65, 256, 1 << 32, usize::MAX]
}

#[test]
fn mounted_tip_outside_the_rack_is_refused_before_the_buffers() {
    // Line 1 is no run.
    let no_run = closed(3, &[(&[1], 1), (&[0, 2], 1)]);
    for (rack, board) in [(3, no_run), (3, closed(3, &[])), (64, closed(64, &[(&[63], 1)]))] {
        for mounted in outside(rack) {
            for (room, places) in [(0, 0), (512, 0), (0, 4096), (512, 4096)] {
                let (mut plan, mut table) = (vec![7; room], vec![7; places]);
                let answer = board.clone().quick(Some(mounted), &mut plan);
                assert_eq!((answer.number, answer.place, answer.value, &answer.board), (16, 0, 0, &board));
                let answer = board.clone().best(Some(mounted), &mut plan, &mut table);
                assert_eq!((answer.number, answer.place, answer.value, &answer.board), (16, 0, 0, &board));
                assert_eq!((plan, table), (vec![7; room], vec![7; places]));
            }
        }
    }
}

#[test]
fn state_of_the_board_is_refused_before_the_mounted_tip() {
    let sound = closed(3, &[(&[0], 1), (&[1, 2], 1)]);
    let with = |set: u64, place: usize| {
        let mut board = sound.clone();
        board.sets[place] = set;
        board
    };
    let boards = [
        (Board { rack: 0, ..sound.clone() }, refusal::UNSOUND_BOARD, 0),
        (with(0, 1), refusal::UNSOUND_LINE, 1),
        (with(1, 2), refusal::HELD_BEHIND, 2),
        (Board { stage: Stage::Open, ..sound.clone() }, refusal::BOARD_OPEN, 0),
    ];
    for (board, number, place) in boards {
        for mounted in [None, Some(0), Some(3), Some(usize::MAX)] {
            let answer = board.clone().quick(mounted, &mut []);
            assert_eq!((answer.number, answer.place), (number, place));
            let answer = board.clone().best(mounted, &mut [], &mut []);
            assert_eq!((answer.number, answer.place), (number, place));
        }
    }
}

#[test]
fn interface_has_one_number_for_no_tip() {
    let board = closed(3, &[(&[0], 1), (&[1, 2], 1)]);
    let file = board.file();
    let mut answer = [9; 5];
    for (mounted, tip) in [(NO_TIP, 1), (0, 1), (1, 1), (2, 2)] {
        let (mut plan, mut table) = ([7; 2], [7; 9]);
        assert_eq!(interface::quick(&file, mounted, &mut plan, &mut answer), 0);
        assert_eq!((plan, answer), ([0, tip], [0, 0, 0, 0, 9]));
        assert_eq!(interface::best(&file, mounted, &mut plan, &mut table, &mut answer), 0);
        assert_eq!((plan, answer), ([0, tip], [0, 0, 0, 0, 9]));
    }
    for mounted in [3, 64, 255, 256, 257, 1 << 32, NO_TIP - 1] {
        // Reading is refused first, and a short answer before everything.
        for (given, number) in [(&file[..], refusal::MOUNTED_OUTSIDE), (&file[..7], refusal::SHORT_FILE)] {
            answer = [9; 5];
            assert_eq!(interface::quick(given, mounted, &mut [], &mut answer), number);
            assert_eq!(answer, [0, 0, 0, 0, 9]);
            assert_eq!(interface::best(given, mounted, &mut [], &mut [], &mut answer), number);
            assert_eq!(answer, [0, 0, 0, 0, 9]);
            assert_eq!(interface::quick(given, mounted, &mut [], &mut answer[..3]), refusal::SHORT_ANSWER);
        }
    }
}
