//! Small boards, with quantities and without, against trying every plan, plans from other software among them with every
//! table of small numbers, and the counts that 002 prints.

use second::{pairs_in, refusal, try_every_plan, Board};

use every_plan::{all_runs, all_sets, check, counted, every_board, single};

mod every_plan;

#[test]
fn every_small_board() {
    let mut boards = 0;
    for (rack, most_lines) in [(1, 6), (2, 5), (3, 4), (4, 3), (5, 2)] {
        for lines in 0..=most_lines {
            boards += every_board(rack, &single(&all_sets(rack)), lines, &mut check);
        }
    }
    assert_eq!(boards, 7 + 364 + 2801 + 3616 + 993);
}

#[test]
fn every_small_board_of_runs() {
    let mut boards = 0;
    for (rack, most_lines) in [(3, 5), (4, 4), (5, 3), (6, 2)] {
        for lines in 0..=most_lines {
            boards += every_board(rack, &single(&all_runs(rack)), lines, &mut check);
        }
    }
    assert_eq!(boards, 9331 + 11111 + 3616 + 463);
}

#[test]
fn every_small_board_with_quantities() {
    let mut boards = 0;
    let cases: [(usize, &[u8], usize); 4] =
        [(1, &[1, 2, 3, 255], 3), (2, &[1, 2, 3], 4), (3, &[1, 5], 3), (4, &[1, 3], 2)];
    for (rack, quantities, most_lines) in cases {
        for lines in 0..=most_lines {
            boards += every_board(rack, &counted(&all_sets(rack), quantities), lines, &mut check);
        }
    }
    assert_eq!(boards, 85 + 7381 + 2955 + 931);
}

#[test]
fn every_small_board_of_runs_with_quantities() {
    let mut boards = 0;
    for (rack, quantities, most_lines) in [(3, [1, 4], 4), (4, [2, 3], 3), (5, [1, 7], 2)] {
        for lines in 0..=most_lines {
            boards += every_board(rack, &counted(&all_runs(rack), &quantities), lines, &mut check);
        }
    }
    assert_eq!(boards, 22_621 + 8421 + 931);
}

#[test]
fn plans_within_each_bound_as_002_prints_them() {
    let expected: [(usize, &[u64]); 2] = [(3, &[4, 40, 64, 64]), (4, &[5, 85, 505, 625, 625])];
    for (lines, counts) in expected {
        let rack = lines + 1;
        let tried = try_every_plan(&Board::of_sets(rack, &vec![(1 << rack) - 1; lines]));
        assert_eq!((0..=lines).map(|k| tried.plans_within(k)).collect::<Vec<_>>(), counts);
    }
}

/// Hands on every plan of the board, own tips or not, with tips up to the rack size.
fn every_byte_plan(board: &Board, hand_on: &mut dyn FnMut(&[u8])) {
    let choices = board.rack + 1;
    for number in 0..choices.pow(board.count as u32) {
        let plan: Vec<u8> = (0..board.count as u32).map(|line| (number / choices.pow(line) % choices) as u8).collect();
        hand_on(&plan);
    }
}

/// Every table with entries up to the most given at or above the diagonal, and junk below it.
fn every_table(rack: usize, most: u32, hand_on: &mut dyn FnMut(&[u32])) {
    let places: Vec<usize> = (0..rack * rack).filter(|place| place / rack <= place % rack).collect();
    let mut table = vec![9; rack * rack];
    places.iter().for_each(|&place| table[place] = 0);
    loop {
        hand_on(&table);
        let Some(next) = places.iter().position(|&place| table[place] < most) else { return };
        places[..next].iter().for_each(|&place| table[place] = 0);
        table[places[next]] += 1;
    }
}

#[test]
fn what_is_accepted_has_the_most_pairs() {
    let (mut accepted, mut refused) = (0, 0);
    let mut on_board = |board: &Board| {
        let most = try_every_plan(board).most_pairs;
        every_byte_plan(board, &mut |plan| {
            let own = plan.iter().zip(board.lines()).all(|(tip, line)| line.set >> tip & 1 == 1);
            let pairs = pairs_in(&board.placed(plan));
            every_table(board.rack, 3, &mut |table| {
                let number = board.clone().check(plan, pairs, table).number;
                assert_eq!(number == refusal::FOREIGN_TIP, !own);
                assert!(number != 0 || pairs == most, "{plan:?} {table:?} of {board:?}");
                accepted += usize::from(number == 0);
                refused += usize::from(number == refusal::WRONG_TABLE);
            });
        });
    };
    for lines in 0..=2 {
        every_board(2, &counted(&all_runs(2), &[1, 2]), lines, &mut on_board);
    }
    every_board(2, &single(&all_runs(2)), 3, &mut on_board);
    every_board(3, &single(&all_runs(3)), 2, &mut on_board);
    assert!(accepted > 100 && refused > 1000, "{accepted} {refused}");
}
