//! Boards with tips that no line names: rows worked out by hand, and every small board against the rule for unbroken runs
//! on the named tips alone, counted anew.

use every_plan::{all_runs, all_sets, check, counted, every_board, single};
use second::{refusal, Board, Line};

mod every_plan;

/// The closed board of these lines, tips and quantity.
fn closed(rack: usize, lines: &[(&[usize], u8)]) -> Board {
    let set = |tips: &[usize]| tips.iter().fold(0, |set, tip| set | 1 << tip);
    let lines: Vec<Line> = lines.iter().map(|&(tips, quantity)| Line { set: set(tips), quantity }).collect();
    Board::of_lines(rack, &lines)
}

/// What best sharing gives: plan, pairs and table, or the first line that is no run.
type Best = Result<(Vec<u8>, u32, Vec<u32>), usize>;

fn best(board: &Board) -> Best {
    let mut plan = vec![0xA5; board.count];
    let mut table = vec![0xA5A5_A5A5; board.rack * board.rack];
    let answer = board.clone().best(None, &mut plan, &mut table);
    assert_eq!(&answer.board, board);
    match answer.number {
        0 => Ok((plan, answer.value, table)),
        number => {
            assert_eq!((number, answer.value), (refusal::NO_RUN, 0));
            assert!(plan.iter().all(|&tip| tip == 0xA5) && table.iter().all(|&pairs| pairs == 0xA5A5_A5A5));
            Err(answer.place)
        }
    }
}

#[test]
fn tip_that_no_line_names_may_be_missing() {
    assert_eq!(best(&closed(5, &[(&[2, 4], 1)])), Ok((vec![2], 0, vec![0; 25])));
    // Tip 4 takes all three: 3 pairs within any stretch that has 2 to 4.
    let table = vec![0, 0, 0, 0, 3, 0, 0, 0, 0, 3, 0, 0, 0, 0, 3, 0, 0, 0, 0, 0, 0, 0, 0, 0, 0];
    assert_eq!(best(&closed(5, &[(&[2, 4], 2), (&[4], 1)])), Ok((vec![4, 4], 3, table)));
}

#[test]
fn line_that_misses_a_named_tip_is_told() {
    assert_eq!(best(&closed(5, &[(&[2, 4], 1), (&[3], 1)])), Err(0));
    assert_eq!(best(&closed(5, &[(&[3], 1), (&[2, 4], 1)])), Err(1));
    // Tip 5 is missing in line 0 and no line has it; tip 3 is missing in line 1, and line 2 has it.
    assert_eq!(best(&closed(7, &[(&[4, 6], 1), (&[2, 4], 1), (&[3], 1), (&[2, 4], 1)])), Err(1));
    assert_eq!(best(&closed(7, &[(&[4, 6], 1), (&[2, 4], 1), (&[1], 1), (&[2, 4], 1)])).map(|best| best.1), Ok(3));
}

#[test]
fn table_of_the_rack_has_unnamed_ends_too() {
    // Tips 2, 4 and 6 of 8. Within 2 to 4 tip 2 takes 3, within 4 to 6 tip 4 takes 2, within 2 to 6 tip 4 takes 4.
    let board = closed(8, &[(&[2, 4], 2), (&[4, 6], 2), (&[2], 1)]);
    let from_0_1_2 = [0, 0, 0, 0, 3, 3, 6, 6];
    let from_3_4 = [0, 0, 0, 0, 0, 0, 1, 1];
    let table = [from_0_1_2, from_0_1_2, from_0_1_2, from_3_4, from_3_4, [0; 8], [0; 8], [0; 8]].concat();
    assert_eq!(best(&board), Ok((vec![4, 4, 2], 6, table)));
}

#[test]
fn named_tips_at_the_ends_of_the_rack() {
    // Tip 0 and tip 63 can take 5 and 4: tip 0 takes 5, 10 pairs; the two of {0} are a pair of their own.
    let board = closed(64, &[(&[0, 63], 3), (&[0], 2), (&[63], 1)]);
    let mut table = vec![0; 4096];
    table[..63].fill(1);
    table[63] = 10;
    assert_eq!(best(&board), Ok((vec![0, 0, 63], 10, table)));
}

#[test]
fn board_without_lines_names_no_tip() {
    for rack in [1, 3, 64] {
        assert_eq!(best(&closed(rack, &[])), Ok((vec![], 0, vec![0; rack * rack])));
    }
}

/// Best sharing as it was before tips could be missing: every tip of the stretch may be chosen.
fn best_of_unbroken_runs(board: &Board) -> Best {
    let (m, runs) = (board.rack, all_runs(board.rack));
    if let Some(line) = board.lines().position(|line| !runs.contains(&line.set)) {
        return Err(line);
    }
    // One more row and column, so that an empty stretch has a place; a to b is at place a, b + 1.
    let mut most = vec![vec![(0, 0); m + 1]; m + 1];
    let within = |line: &Line, a: usize, b: usize| line.set >> a << a == line.set && line.set >> b >> 1 == 0;
    for a in (0..m).rev() {
        for b in a..m {
            let choices = (a..=b).rev().map(|c| {
                let taken = board.lines().filter(|line| within(line, a, b) && line.set >> c & 1 == 1);
                let placements: u32 = taken.map(|line| u32::from(line.quantity)).sum();
                (placements * placements.saturating_sub(1) / 2 + most[a][c].0 + most[c + 1][b + 1].0, c)
            });
            // The last of the largest: the lowest tip.
            most[a][b + 1] = choices.max_by_key(|&(pairs, _)| pairs).expect("a tip");
        }
    }
    let mut plan = vec![0xA5; board.count];
    let mut stretches = vec![(0, m)];
    while let Some((a, end)) = stretches.pop().filter(|_| m > 0) {
        if a < end {
            let c = most[a][end].1;
            for (tip, line) in plan.iter_mut().zip(board.lines()) {
                if within(&line, a, end - 1) && line.set >> c & 1 == 1 {
                    *tip = c as u8;
                }
            }
            stretches.extend([(a, c), (c + 1, end)]);
        }
    }
    let table = (0..m * m).map(|place| most[place / m][place % m + 1].0).collect();
    Ok((plan, most[0][m].0, table))
}

/// The named tips, the lowest first.
fn named(board: &Board) -> Vec<usize> {
    (0..board.rack).filter(|tip| board.lines().any(|line| line.set >> tip & 1 == 1)).collect()
}

/// The rule for unbroken runs on the named tips alone, counted anew from 0, with every answer in the rack's numbers again.
fn best_counted_anew(board: &Board) -> Best {
    let named = named(board);
    let anew =
        |set: u64| (0..named.len()).filter(|&rank| set >> named[rank] & 1 == 1).fold(0, |set, rank| set | 1 << rank);
    let lines: Vec<Line> = board.lines().map(|Line { set, quantity }| Line { set: anew(set), quantity }).collect();
    let (plan, pairs, ranks) = best_of_unbroken_runs(&Board::of_lines(named.len(), &lines))?;
    let mut table = vec![0; board.rack * board.rack];
    for a in 0..board.rack {
        for b in a..board.rack {
            let first = named.iter().position(|&tip| tip >= a);
            let last = named.iter().rposition(|&tip| tip <= b);
            if let (Some(first), Some(last)) = (first, last) {
                table[a * board.rack + b] = if first > last { 0 } else { ranks[first * named.len() + last] };
            }
        }
    }
    Ok((plan.iter().map(|&rank| named[usize::from(rank)] as u8).collect(), pairs, table))
}

/// How many boards are accepted though they are refused by the rule for unbroken runs, and how many are refused.
fn check_all(rack: usize, choices: &[Line], lines: usize) -> (usize, usize) {
    let (mut with_absent_tips, mut refused) = (0, 0);
    every_board(rack, choices, lines, &mut |board| {
        let best = best(board);
        assert_eq!(best, best_counted_anew(board), "{board:?}");
        let before = best_of_unbroken_runs(board);
        // Boards of unbroken runs keep their pairs, tables and plans.
        assert!(before.is_err() || before == best, "{board:?}");
        with_absent_tips += usize::from(before.is_err() && best.is_ok());
        refused += usize::from(best.is_err());
    });
    (with_absent_tips, refused)
}

#[test]
fn every_small_board_is_planned_on_its_named_tips() {
    let mut seen = (0, 0);
    for (rack, most_lines) in [(1, 4), (2, 4), (3, 4), (4, 3), (5, 2), (6, 2)] {
        for lines in 0..=most_lines {
            let (with_absent_tips, refused) = check_all(rack, &single(&all_sets(rack)), lines);
            seen = (seen.0 + with_absent_tips, seen.1 + refused);
        }
    }
    assert!(seen.0 > 1000 && seen.1 > 1000, "{seen:?}");
}

#[test]
fn every_small_board_with_quantities_is_planned_on_its_named_tips() {
    let mut seen = (0, 0);
    for (rack, quantities, most_lines) in [(3, &[1, 2, 5][..], 3), (4, &[1, 3], 2), (5, &[2], 2)] {
        for lines in 0..=most_lines {
            let (with_absent_tips, refused) = check_all(rack, &counted(&all_sets(rack), quantities), lines);
            seen = (seen.0 + with_absent_tips, seen.1 + refused);
        }
    }
    assert!(seen.0 > 500 && seen.1 > 500, "{seen:?}");
}

/// The sets that tips of this set make.
fn sets_within(tips: u64) -> Vec<u64> {
    (1..=tips).filter(|set| set & !tips == 0).collect()
}

#[test]
fn boards_on_few_tips_of_a_rack_have_the_most_pairs_of_every_plan() {
    let mut boards = 0;
    for tips in [0b100_1010, 0b010_0101] {
        boards += every_board(7, &counted(&sets_within(tips), &[1, 3]), 3, &mut check);
        boards += every_board(7, &single(&sets_within(tips | 1 << 4)), 3, &mut check);
    }
    assert_eq!(boards, 2 * (14 * 14 * 14 + 15 * 15 * 15));
}
