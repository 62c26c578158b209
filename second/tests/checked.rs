//! Plans from other software: rows worked out by hand, and the order of their refusals.

use second::{refusal, Board, Line, Stage};

/// The closed board of these lines, tips and quantity.
fn closed(rack: usize, lines: &[(&[usize], u8)]) -> Board {
    let set = |tips: &[usize]| tips.iter().fold(0, |set, tip| set | 1 << tip);
    let lines: Vec<Line> = lines.iter().map(|&(tips, quantity)| Line { set: set(tips), quantity }).collect();
    Board::of_lines(rack, &lines)
}

/// The number of the check, which has place 0 and hands the board back.
fn check(board: &Board, plan: &[u8], claim: u32, table: &[u32]) -> u32 {
    let answer = board.clone().check(plan, claim, table);
    assert_eq!((answer.place, &answer.board), (0, board));
    answer.number
}

/// B6 of the rules: {0}, {2}, {0,1}, {1,2}, with the plan 0, 2, 0, 2 of 2 pairs.
fn b6() -> Board {
    closed(3, &[(&[0], 1), (&[2], 1), (&[0, 1], 1), (&[1, 2], 1)])
}

const PLAN: [u8; 4] = [0, 2, 0, 2];
const TABLE: [u32; 9] = [0, 1, 2, 0, 0, 1, 0, 0, 0];

/// The table of B6 with other entries at these places.
fn table_with(entries: &[(usize, u32)]) -> [u32; 9] {
    let mut table = TABLE;
    entries.iter().for_each(|&(place, entry)| table[place] = entry);
    table
}

#[test]
fn own_plan_and_table_are_accepted() {
    assert_eq!(check(&b6(), &PLAN, 2, &TABLE), 0);
    // What stands behind them does not count, nor what stands below the diagonal.
    assert_eq!(check(&b6(), &[0, 2, 0, 2, 255], 2, &table_with(&[(3, 9), (6, u32::MAX), (7, 1)])), 0);
    // No lines: the claim and the entry for the rack are 0, and nothing else is asked for.
    assert_eq!(check(&closed(1, &[]), &[], 0, &[0]), 0);
    assert_eq!(check(&closed(2, &[]), &[], 0, &[7, 0, u32::MAX, 7]), 0);
    assert_eq!(check(&closed(2, &[]), &[], 0, &[0, 1, 0, 0]), refusal::WRONG_TABLE);
    assert_eq!(check(&closed(2, &[]), &[], 1, &[0, 1, 0, 0]), refusal::WRONG_CLAIM);
}

#[test]
fn other_best_plans_are_accepted() {
    // {0} of 2 and {1,2} of 3: the second line may be on either tip.
    let board = closed(3, &[(&[0], 2), (&[1, 2], 3)]);
    let table = [1, 1, 4, 0, 0, 3, 0, 0, 0];
    assert_eq!([1, 2].map(|tip| check(&board, &[0, tip], 4, &table)), [0, 0]);
}

#[test]
fn larger_entries_are_accepted_where_they_fit() {
    // The entry for 0 to 0, or that for 2 to 2, may be 1: within 0 to 1 tip 1 then needs 0 + 1, and within the rack, where
    // it takes 2 placements, 1 + 1 + 0.
    assert_eq!(check(&b6(), &PLAN, 2, &table_with(&[(0, 1)])), 0);
    assert_eq!(check(&b6(), &PLAN, 2, &table_with(&[(8, 1)])), 0);
    assert_eq!(check(&b6(), &PLAN, 2, &table_with(&[(0, 1), (8, 1)])), refusal::WRONG_TABLE);
    assert_eq!(check(&b6(), &PLAN, 2, &table_with(&[(0, 2)])), refusal::WRONG_TABLE);
    // Within the rack tip 2 takes 2 placements: 1 pair, and the entry for 0 to 1.
    assert_eq!(check(&b6(), &PLAN, 2, &table_with(&[(1, 2)])), refusal::WRONG_TABLE);
}

#[test]
fn entries_that_are_too_low_are_refused() {
    assert!(b6().table_shows(2, &TABLE));
    for (place, entry) in [(1, 0), (5, 0), (2, 3), (2, 1)] {
        let table = table_with(&[(place, entry)]);
        assert_eq!(check(&b6(), &PLAN, 2, &table), refusal::WRONG_TABLE);
        assert!(!b6().table_shows(2, &table));
    }
}

#[test]
fn sums_do_not_wrap() {
    let max = u32::MAX;
    // Tip 1 needs 1 pair and the entry for 0 to 0, in 32 bits 0.
    assert_eq!(check(&b6(), &PLAN, 2, &table_with(&[(0, max), (1, max)])), refusal::WRONG_TABLE);
    // Every stretch but the rack at the most that an entry can be.
    assert_eq!(check(&b6(), &PLAN, 2, &[max, max, 2, max, max, max, max, max, max]), refusal::WRONG_TABLE);
    // Tip 0 is not named, so that the row of tip 1 is asked for by itself alone. Within 1 to 2 tip 2 takes one placement
    // and needs the entry for 1 to 1; in the last board it takes 3, and the sum is above the most.
    let board = closed(3, &[(&[1], 2), (&[1, 2], 1)]);
    assert_eq!(check(&board, &[1, 1], 3, &[0, 1, 3, 0, max, max, 0, 0, 0]), 0);
    assert_eq!(check(&board, &[1, 1], 3, &[0, 1, 3, 0, max, max - 1, 0, 0, 0]), refusal::WRONG_TABLE);
    let board = closed(3, &[(&[1], 2), (&[1, 2], 1), (&[2], 2)]);
    assert_eq!(check(&board, &[1, 1, 2], 4, &[0, 1, 4, 0, 1, 4, 0, 0, 1]), 0);
    assert_eq!(check(&board, &[1, 1, 2], 4, &[0, 1, 4, 0, max, max, 0, 0, 1]), refusal::WRONG_TABLE);
}

#[test]
fn only_named_tips_are_asked_for() {
    // Tips 0 and 2 of 3: {0,2} of 2 placements. The entry for 1 to 1 and those beside tip 1 are asked for by no tip.
    let board = closed(3, &[(&[0, 2], 2)]);
    assert_eq!(check(&board, &[0], 1, &[0, 0, 1, 0, 0, 0, 0, 0, 0]), 0);
    // 0 to 0 and 2 to 2 are beside tip 1 alone, but for 0 to 2, where tip 0 leaves 1 to 2 and tip 2 leaves 0 to 1.
    assert_eq!(check(&board, &[2], 1, &[9, 9, 1, 0, 9, 9, 0, 0, 9]), refusal::WRONG_TABLE);
    let board = closed(4, &[(&[1, 3], 2)]);
    let own = [0, 0, 0, 1, 0, 0, 0, 1, 0, 0, 0, 0, 0, 0, 0, 0];
    assert_eq!(check(&board, &[3], 1, &own), 0);
    // 1 to 3 is beside tip 0 alone, which no line names.
    let mut raised = own;
    raised[4 + 3] = u32::MAX;
    assert_eq!(check(&board, &[3], 1, &raised), 0);
    // 0 to 0 is beside tip 1.
    raised[0] = 1;
    assert_eq!(check(&board, &[3], 1, &raised), refusal::WRONG_TABLE);
}

#[test]
fn foreign_tips_are_refused() {
    for line in 0..4 {
        for byte in 0..=255 {
            let mut plan = PLAN;
            plan[line] = byte;
            let own = byte < 64 && b6().sets[line] >> byte & 1 == 1;
            let number = check(&b6(), &plan, 2, &TABLE);
            assert_eq!(number == refusal::FOREIGN_TIP, !own, "{plan:?}");
            // On another tip of its own the line leaves fewer pairs.
            assert!(
                number
                    == if plan == PLAN {
                        0
                    } else if own {
                        20
                    } else {
                        19
                    }
            );
        }
    }
    // Tip 63 is a tip as any other.
    let board = closed(64, &[(&[63], 1)]);
    assert_eq!([63, 62, 64, 127, 255].map(|tip| check(&board, &[tip], 0, &[0; 4096])), [0, 19, 19, 19, 19]);
}

#[test]
fn refusals_have_their_order() {
    let short = closed(3, &[(&[1], 1), (&[0, 2], 1)]);
    let table = [9; 9];
    // Line 1 is no run: after the lengths, before plan, claim and table.
    for (plan, places, number, place) in
        [(&[9][..], 8, refusal::SHORT_PLAN, 0), (&[9, 9], 8, refusal::SHORT_TABLE, 0), (&[9, 9], 9, refusal::NO_RUN, 1)]
    {
        let answer = short.clone().check(plan, 7, &table[..places]);
        assert_eq!((answer.number, answer.place, &answer.board), (number, place, &short));
    }
    assert_eq!(check(&b6(), &PLAN[..3], 9, &table[..8]), refusal::SHORT_PLAN);
    assert_eq!(check(&b6(), &[9; 4], 9, &table[..8]), refusal::SHORT_TABLE);
    assert_eq!(check(&b6(), &[9; 4], 9, &table), refusal::FOREIGN_TIP);
    assert_eq!(check(&b6(), &PLAN, 9, &table), refusal::WRONG_CLAIM);
    assert_eq!(check(&b6(), &PLAN, 1, &TABLE), refusal::WRONG_CLAIM);
    assert_eq!(check(&b6(), &PLAN, 2, &table), refusal::WRONG_TABLE);
    // A plan with fewer pairs and a true claim: its table cannot have the claim for the rack.
    assert_eq!(check(&b6(), &[0, 2, 1, 1], 1, &TABLE), refusal::WRONG_TABLE);
    assert_eq!(check(&b6(), &[0, 2, 1, 1], 1, &table_with(&[(2, 1)])), refusal::WRONG_TABLE);
    let open = Board { stage: Stage::Open, ..b6() };
    assert_eq!(check(&open, &[], 9, &[]), refusal::BOARD_OPEN);
}

#[test]
fn claims_count_placements() {
    let most = closed(1, &[[(&[0][..], 255); 8].as_slice(), &[(&[0], 8)]].concat());
    assert_eq!(check(&most, &[0; 9], 2_096_128, &[2_096_128]), 0);
    for claim in [36, 2_096_127, 2_096_128 + (1 << 31), u32::MAX] {
        assert_eq!(check(&most, &[0; 9], claim, &[claim]), refusal::WRONG_CLAIM);
    }
}
