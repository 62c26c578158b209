//! Two boards on one panel: the rows of the rules, the order of refusals, and what holds of every panel.

use second::{interface, pairs_in, refusal, try_every_plan, Board, Line, Stage, Version};

/// The closed board of these lines, tips and quantity.
fn closed(rack: usize, lines: &[(&[usize], u8)]) -> Board {
    let set = |tips: &[usize]| tips.iter().fold(0, |set, tip| set | 1 << tip);
    let lines: Vec<Line> = lines.iter().map(|&(tips, quantity)| Line { set: set(tips), quantity }).collect();
    Board::of_lines(rack, &lines)
}

/// The open board of a refused read.
fn no_panel() -> Board {
    Board { stage: Stage::Open, ..Board::of_lines(1, &[]) }
}

/// The panel of two boards, which are handed back.
fn panel_of(first: &Board, second: &Board) -> Board {
    let merged = first.clone().merge(second.clone());
    assert_eq!((merged.number, merged.place), (0, 0));
    assert_eq!((&merged.first, &merged.second), (first, second));
    merged.panel
}

/// Merging is refused with this number and place, and hands both boards back.
fn assert_no_panel(first: &Board, second: &Board, number: u32, place: usize) {
    let merged = first.clone().merge(second.clone());
    assert_eq!((merged.number, merged.place), (number, place));
    assert_eq!((&merged.first, &merged.second, &merged.panel), (first, second, &no_panel()));
}

/// Planning alone is refused with this number and place, and leaves a plan of this length as it is.
fn assert_not_alone(first: &Board, second: &Board, length: usize, number: u32, place: usize) {
    let mut plan = vec![7; length];
    let alone = first.clone().alone(second.clone(), &mut plan);
    assert_eq!((alone.number, alone.place, alone.first_pairs, alone.second_pairs), (number, place, 0, 0));
    assert_eq!((&alone.first, &alone.second, plan), (first, second, vec![7; length]));
}

/// The most pairs of a board of runs.
fn best_pairs(board: &Board) -> u32 {
    let best = board.clone().best(None, &mut [0; 512], &mut [0; 4096]);
    assert_eq!(best.number, 0);
    best.value
}

fn off(board: &Board) -> usize {
    board.clone().common_tip().value.off
}

#[test]
fn panels_of_the_rules() {
    // B66: the panel has more placements off than both boards, and as many pairs.
    let first = closed(3, &[(&[0], 1), (&[0, 1], 2)]);
    let second = closed(3, &[(&[1, 2], 1), (&[2], 1)]);
    let panel = panel_of(&first, &second);
    assert_eq!(panel, closed(3, &[(&[0], 1), (&[0, 1], 2), (&[1, 2], 1), (&[2], 1)]));
    assert_eq!([&first, &second, &panel].map(off), [0, 0, 2]);
    assert_eq!([&first, &second, &panel].map(best_pairs), [3, 1, 4]);
    // B67: as many off, and more pairs.
    let second = closed(3, &[(&[0, 1], 1), (&[2], 1)]);
    let panel = panel_of(&first, &second);
    assert_eq!(panel, closed(3, &[(&[0], 1), (&[0, 1], 2), (&[0, 1], 1), (&[2], 1)]));
    assert_eq!([&first, &second, &panel].map(off), [0, 1, 1]);
    assert_eq!([&first, &second, &panel].map(best_pairs), [3, 0, 6]);
    // B71: a board without lines on either side, and on both.
    let lines = closed(3, &[(&[0], 1), (&[1, 2], 1)]);
    let none = closed(3, &[]);
    assert_eq!(panel_of(&none, &lines), lines);
    assert_eq!(panel_of(&lines, &none), lines);
    assert_eq!(panel_of(&none, &none), none);
}

#[test]
fn limits_of_a_panel() {
    // B68: the racks differ, with lines and without.
    assert_no_panel(&closed(3, &[(&[0], 1)]), &closed(4, &[(&[0], 1)]), 17, 0);
    assert_no_panel(&closed(3, &[]), &closed(64, &[]), 17, 0);
    // B69: 512 lines of 2,048 placements, and one line more.
    let full = closed(1, &[(&[0][..], 4); 512]);
    assert_eq!(panel_of(&full, &closed(1, &[])), full);
    assert_eq!(panel_of(&closed(1, &[]), &full), full);
    assert_no_panel(&full, &closed(1, &[(&[0], 1)]), 24, 0);
    assert_no_panel(&closed(1, &[(&[0], 1)]), &full, 24, 0);
    assert_no_panel(&full, &closed(2, &[(&[0], 1)]), 17, 0);
    let half = closed(1, &[(&[0][..], 1); 256]);
    assert_eq!(panel_of(&half, &half).count, 512);
    assert_no_panel(&closed(1, &[(&[0][..], 1); 257]), &half, 24, 0);
    // B70: 2,048 placements, and one more.
    let eight = [(&[0][..], 255); 8];
    let panel = panel_of(&closed(3, &eight), &closed(3, &[(&[1, 2], 8)]));
    assert_eq!(panel, closed(3, &[&eight[..], &[(&[1, 2], 8)]].concat()));
    assert_eq!(panel.placements().len(), 2048);
    assert_no_panel(&closed(3, &eight), &closed(3, &[(&[1, 2], 9)]), 30, 0);
    assert_no_panel(&closed(3, &eight), &closed(3, &eight), 30, 0);
}

#[test]
fn boards_that_are_refused() {
    // B72: the first board's numbers, then the second's, then those of the call.
    let good = closed(3, &[(&[0], 1), (&[1, 2], 1)]);
    let out_of_range = closed(65, &[]);
    let empty_line = closed(3, &[(&[0], 1), (&[], 1), (&[1], 1)]);
    let mut left_over = closed(3, &[(&[0], 1)]);
    left_over.sets[3] = 1;
    let open = Board { stage: Stage::Open, ..closed(4, &[]) };
    for (second, number, place) in [
        (&out_of_range, refusal::UNSOUND_BOARD, 0),
        (&empty_line, refusal::UNSOUND_LINE, 1),
        (&left_over, refusal::HELD_BEHIND, 3),
        (&open, refusal::BOARD_OPEN, 0),
    ] {
        assert_no_panel(&good, second, number, place);
        assert_no_panel(second, &good, number, place);
        assert_not_alone(&good, second, 0, number, place);
        assert_not_alone(second, &good, 9, number, place);
    }
    for (first, second, number, place) in
        [(&open, &out_of_range, 23, 0), (&empty_line, &out_of_range, 27, 1), (&left_over, &empty_line, 28, 3)]
    {
        assert_no_panel(first, second, number, place);
        assert_not_alone(first, second, 0, number, place);
    }
}

#[test]
fn boards_planned_alone() {
    // B73: two racks.
    let first = closed(3, &[(&[0], 1), (&[0, 1], 2)]);
    let second = closed(5, &[(&[2, 4], 1), (&[4], 1)]);
    for length in [4, 6, 512] {
        let mut plan = vec![7; length];
        let alone = first.clone().alone(second.clone(), &mut plan);
        assert_eq!((alone.number, alone.place, alone.first_pairs, alone.second_pairs), (0, 0, 3, 1));
        assert_eq!((&alone.first, &alone.second), (&first, &second));
        assert_eq!(plan[..4], [0, 0, 4, 4]);
        assert!(plan[4..].iter().all(|&tip| tip == 7));
    }
    for length in 0..4 {
        assert_not_alone(&first, &second, length, 4, 0);
    }
    // B74: a board without lines on either side, and on both.
    let (none, line) = (closed(3, &[]), closed(1, &[(&[0], 2)]));
    for (first, second, pairs, bytes) in
        [(&none, &line, (0, 1), 1), (&line, &none, (1, 0), 1), (&none, &none, (0, 0), 0)]
    {
        let mut plan = [7; 3];
        let alone = first.clone().alone(second.clone(), &mut plan[..bytes]);
        assert_eq!((alone.number, (alone.first_pairs, alone.second_pairs)), (0, pairs));
        assert_eq!(plan, if bytes == 1 { [0, 7, 7] } else { [7; 3] });
    }
}

#[test]
fn what_holds_of_every_panel() {
    // Every board of up to two lines on two tips, with one placement or two each.
    let lines: Vec<Line> = (1..4).flat_map(|set| [1, 2].map(|quantity| Line { set, quantity })).collect();
    let mut boards = vec![closed(2, &[])];
    for &line in &lines {
        boards.push(Board::of_lines(2, &[line]));
        boards.extend(lines.iter().map(|&other| Board::of_lines(2, &[line, other])));
    }
    for first in &boards {
        for second in &boards {
            let panel = panel_of(first, second);
            assert!(panel.is_sound() && panel.stage == Stage::Closed);
            let most = [first, second, &panel].map(|board| try_every_plan(board).most_pairs);
            assert!(most[2] >= most[0] + most[1]);
            assert!(off(&panel) >= off(first) + off(second));
            let with =
                |board: &Board, tip: usize| board.placements().iter().filter(|&&set| set >> tip & 1 == 1).count();
            assert!((0..2).all(|tip| with(&panel, tip) == with(first, tip) + with(second, tip)));
            // Each part of the plan is the quick plan of its own board, of which no plan has more than twice the pairs.
            let mut plan = vec![7; panel.count];
            let alone = first.clone().alone(second.clone(), &mut plan);
            let parts =
                [(first, &plan[..first.count], alone.first_pairs), (second, &plan[first.count..], alone.second_pairs)];
            for ((board, part, pairs), most) in parts.into_iter().zip(most) {
                let mut own = vec![0; board.count];
                assert_eq!(board.clone().quick(None, &mut own).value, pairs);
                assert_eq!((own, pairs_in(&board.placed(part))), (part.to_vec(), pairs));
                assert!(2 * pairs >= most);
            }
        }
    }
}

#[test]
fn interface_of_panels() {
    let first = closed(3, &[(&[0], 1), (&[0, 1], 2)]);
    let second = closed(3, &[(&[1, 2], 1), (&[2], 1)]);
    let (one, two) = (first.file(), second.file_in(Version::Two));
    let mut answer = [9; 5];
    let mut out = [7; 50];
    assert_eq!(interface::merge(&one, &two, &mut out[..44], &mut answer), 0);
    assert_eq!(answer, [0, 44, 0, 0, 9]);
    assert_eq!(out[..44], panel_of(&first, &second).file());
    assert_eq!(out[44..], [7; 6]);
    assert_eq!(interface::merge(&one, &two, &mut out[..43], &mut answer), refusal::SHORT_OUTPUT);
    assert_eq!(answer, [0, 0, 0, 0, 9]);
    // Where every quantity is 1 the panel is of version 1.
    assert_eq!(interface::merge(&two, &two, &mut out, &mut answer), 0);
    assert_eq!((answer, &out[..5]), ([0, 40, 0, 0, 9], &b"TIP\x00\x01"[..]));
    let mut plan = [7; 5];
    assert_eq!(interface::alone(&one, &two, &mut plan, &mut answer), 0);
    assert_eq!((plan, answer), ([0, 0, 2, 2, 7], [0, 3, 1, 0, 9]));
    assert_eq!(interface::alone(&one, &two, &mut plan[..3], &mut answer), refusal::SHORT_PLAN);
    assert_eq!((plan, answer), ([0, 0, 2, 2, 7], [0, 0, 0, 0, 9]));
    // The first file's refusal comes first.
    let mut bad = two.clone();
    bad[24] = 8;
    for (first, second, number, place) in
        [(&one, &bad, 3, 1), (&bad, &one, 3, 1), (&bad, &vec![], 3, 1), (&vec![], &bad, 6, 0)]
    {
        assert_eq!(interface::merge(first, second, &mut out, &mut answer), number);
        assert_eq!(answer, [place, 0, 0, 0, 9]);
        answer[0] = 5;
        assert_eq!(interface::alone(first, second, &mut plan, &mut answer), number);
        assert_eq!(answer, [place, 0, 0, 0, 9]);
    }
    let mut short = [9; 3];
    assert_eq!(interface::merge(&one, &two, &mut out, &mut short), refusal::SHORT_ANSWER);
    assert_eq!(interface::alone(&[], &[], &mut plan, &mut short), refusal::SHORT_ANSWER);
    assert_eq!(short, [9; 3]);
}
