//! Boards to compare on: every small one, and seeded ones of many shapes, with quantities and without, on every tip of the
//! rack and on some of them alone.

use job_file::{Version, MOST_PLACEMENTS};
use second::{Board, Line};

use crate::files::{file_in, file_of};
use crate::random::Random;

/// The set of the tips from first to last.
fn run(first: usize, last: usize) -> u64 {
    u64::MAX >> (63 - (last - first)) << first
}

/// The closed board of these lines, set and quantity.
fn counted(rack: usize, lines: &[(u64, u8)]) -> Board {
    let lines: Vec<Line> = lines.iter().map(|&(set, quantity)| Line { set, quantity }).collect();
    Board::of_lines(rack, &lines)
}

/// Whether some quantity is not 1.
pub fn is_counted(board: &Board) -> bool {
    board.lines().any(|line| line.quantity != 1)
}

/// Whether the set has every tip between its lowest and its highest, named or not.
pub fn is_unbroken(set: u64) -> bool {
    let tips = set >> set.trailing_zeros();
    tips & tips.wrapping_add(1) == 0
}

/// The board with quantity 1 for every line.
pub fn single(board: &Board) -> Board {
    Board::of_sets(board.rack, &board.sets[..board.count])
}

/// The set with each of its tips, taken as a rank, at the place that has this rank.
fn at_places(set: u64, places: &[usize]) -> u64 {
    (0..places.len()).filter(|&rank| set >> rank & 1 == 1).fold(0, |set, rank| set | 1 << places[rank])
}

/// Boards that are always compared: those of the rules, and the ends of each range; the quickest to compare first.
pub fn fixed_boards() -> Vec<Board> {
    let kinds =
        [fixed_single_boards(), fixed_counted_boards(), fixed_boards_with_absent_tips(), fixed_boards_with_ties()];
    let mut boards = [kinds.concat(), fixed_boards_with_prices()].concat();
    boards.sort_by_key(|board| (board.count > 48, board.rack > 9));
    boards
}

fn fixed_single_boards() -> Vec<Board> {
    let all = u64::MAX;
    let mut boards = vec![
        Board::of_sets(3, &[0b001, 0b110]),
        Board::of_sets(9, &[0x00E, 0x0F8, 0x1FF, 0x060]),
        Board::of_sets(3, &[0b010, 0b100, 0b011, 0b101]),
        Board::of_sets(3, &[0b001, 0b100, 0b011, 0b110]),
        Board::of_sets(3, &[0b001, 0b001, 0b011, 0b011, 0b011, 0b110, 0b110, 0b110, 0b100, 0b100]),
        Board::of_sets(3, &[0b011, 0b110, 0b100]),
        Board::of_sets(3, &[0b110]),
        // Two lines that are no runs, and tip 63 struck at margin 0.
        Board::of_sets(4, &[0b0101, 0b0010, 0b1010]),
        Board::of_sets(64, &[0b11 << 62, 1 << 62, all]),
        Board::of_sets(1, &[]),
        Board::of_sets(1, &[1]),
        Board::of_sets(64, &[]),
        Board::of_sets(64, &[all]),
        Board::of_sets(64, &[1 << 63]),
        Board::of_sets(64, &[1 << 63 | 1]),
        Board::of_sets(1, &[1; 512]),
        Board::of_sets(64, &[all; 512]),
        Board::of_sets(64, &[1 << 63; 512]),
    ];
    // Only the last line loses tips, or is no run.
    for last_line in [all, 1 << 20 | 1 << 40] {
        let mut lines = [run(20, 40); 512];
        lines[511] = last_line;
        boards.push(Board::of_sets(64, &lines));
    }
    // As many lines as the Junior takes, and one more, in racks that it takes and not.
    for lines in [64, 65] {
        boards.push(Board::of_sets(8, &[[0b1000_0001; 63].as_slice(), &[1 << 7; 2][..lines - 63]].concat()));
        boards.push(Board::of_sets(9, &vec![0b1; lines]));
    }
    // A tie in a rack of a size that few boards have.
    boards.push(Board::of_sets(37, &[1 << 30 | 1 << 5, 1 << 36]));
    // A goal strikes from the last of many lines on few tips.
    boards.push(Board::of_sets(8, &[[0b1100; 511].as_slice(), &[0xFF]].concat()));
    // Every tip equally often, so that each round is a tie, once with runs and once without.
    let singles: Vec<u64> = (0..512).map(|line| 1 << (line % 64)).collect();
    let alternating: Vec<u64> = (0..512).map(|line| 0x5555_5555_5555_5555_u64.rotate_left(line % 64)).collect();
    boards.push(Board::of_sets(64, &singles));
    boards.push(Board::of_sets(64, &alternating));
    boards
}

fn fixed_counted_boards() -> Vec<Board> {
    let all = u64::MAX;
    let mut boards = vec![
        // By lines quick begins with tip 0, by placements with tip 1.
        counted(2, &[(0b01, 1), (0b01, 1), (0b10, 3), (0b11, 1)]),
        // The same in its second round.
        counted(3, &[(0b001, 9), (0b010, 1), (0b010, 1), (0b100, 3), (0b110, 1)]),
        // Keep strikes up to margin 2; in the next it keeps more than the common tip and spares the last line.
        counted(2, &[(0b01, 5), (0b11, 3), (0b10, 1)]),
        counted(3, &[(0b111, 4), (0b001, 3), (0b010, 2), (0b111, 1)]),
        // The Junior takes the second choice of tips that serves every line, the higher tip, and neither by lines.
        counted(3, &[(0b011, 2), (0b110, 1), (0b100, 1)]),
        counted(2, &[(0b01, 1), (0b10, 2), (0b11, 1)]),
        counted(2, &[(0b01, 1), (0b01, 1), (0b10, 3), (0b11, 1)]),
        counted(8, &[(0b1000_0000, 1), (0b1100_0000, 2), (0b0000_0001, 1)]),
        counted(9, &[(0b1_0000_0000, 1)]),
        // Both tips suit the last line as well, and no two serve all lines.
        counted(2, &[(0b01, 1), (0b10, 1), (0b11, 1)]),
        counted(3, &[(0b001, 1), (0b010, 1), (0b100, 1)]),
        // By lines best takes another plan.
        counted(3, &[(0b001, 1), (0b011, 2), (0b110, 2), (0b100, 3)]),
        counted(3, &[(0b001, 1), (0b011, 4), (0b110, 4), (0b100, 1)]),
        // A goal leaves a gap in the first, and in the second strikes from one of two equal sets.
        counted(3, &[(0b111, 255), (0b001, 2), (0b010, 1), (0b100, 2)]),
        counted(2, &[(0b01, 6), (0b10, 2), (0b11, 1), (0b11, 5)]),
        counted(1, &[(1, 255)]),
        counted(64, &[(all, 255), (1 << 63, 2)]),
        // A quantity with the highest bit, and those beside it.
        counted(4, &[(0b0101, 128), (0b0110, 127), (0b1010, 129)]),
        // The first version is written where every quantity is 1, whichever line has another.
        counted(8, &[[(1, 1); 511].as_slice(), &[(0b11, 2)]].concat()),
        counted(64, &[[(all, 1); 511].as_slice(), &[(all, 2)]].concat()),
        counted(64, &[&[(all, 3)], [(1 << 63, 1); 511].as_slice()].concat()),
        // As many placements as there may be.
        counted(1, &[(1, 4); 512]),
        counted(64, &[(1 << 63, 4); 512]),
        counted(2, &[&[(0b01, 255)], [(0b11, 255); 7].as_slice(), &[(0b10, 8)]].concat()),
        counted(8, &[[(0b0110_0000, 255); 8].as_slice(), &[(0b1000_0000, 1); 8]].concat()),
    ];
    let mixed: Vec<(u64, u8)> =
        (0..512).map(|line| (run(line % 40, line % 40 + line % 23), 1 + line as u8 % 7)).collect();
    boards.push(counted(64, &mixed));
    boards
}

fn fixed_boards_with_absent_tips() -> Vec<Board> {
    let ends = 1 << 63 | 1;
    let even = 0x5555_5555_5555_5555;
    let mut boards = vec![
        // {2,4} with tip 3 in no line, and in another one.
        Board::of_sets(5, &[0b1_0100]),
        Board::of_sets(5, &[0b1_0100, 0b0_1000]),
        // Line 0 lacks tip 5 of no line, and line 1 tip 3 of line 2.
        Board::of_sets(7, &[0b101_0000, 0b001_0100, 0b000_1000, 0b001_0100]),
        // Tips 2, 4 and 6 of 8: rows and columns without a named end before, between and behind them.
        counted(8, &[(0b0001_0100, 2), (0b0101_0000, 2), (0b0000_0100, 1)]),
        // Only the ends of the rack.
        counted(64, &[(ends, 3), (1, 2), (1 << 63, 1)]),
        counted(2, &[(0b11, 3), (0b01, 2)]),
        Board::of_sets(64, &[ends; 512]),
        Board::of_sets(64, &[even; 512]),
        // Tip 31 is named by the last line, or by the first, alone.
        Board::of_sets(64, &[[ends; 511].as_slice(), &[1 << 31]].concat()),
        Board::of_sets(64, &[&[1 << 31], [ends; 511].as_slice()].concat()),
        // A tip from 32 on is missed.
        Board::of_sets(64, &[0b101 << 40, 1 << 41, ends & 1]),
    ];
    // Runs of even tips, all of the rack's; then the last line names an odd one between two of them, and one at the end.
    let lines: Vec<u64> = (0..512).map(|line| even & run(line % 40, line % 40 + line % 23 + 1)).collect();
    for last_line in [1 << 0, 1 << 11, 1 << 63] {
        boards.push(Board::of_sets(64, &[&lines[..511], &[last_line]].concat()));
    }
    boards
}

/// Boards where a mounted tip decides: in the whole rack or the first round, and only after that.
fn fixed_boards_with_ties() -> Vec<Board> {
    vec![
        counted(4, &[(0b1110, 3), (0b0010, 2), (0b1100, 1)]),
        counted(4, &[(0b0001, 2), (0b1100, 1)]),
        counted(3, &[(0b001, 2), (0b101, 1), (0b110, 1)]),
        Board::of_sets(3, &[0b001, 0b010, 0b101, 0b110]),
    ]
}

/// Boards where the price of a tip decides, and boards of as many tips as are shared exactly, and one more.
fn fixed_boards_with_prices() -> Vec<Board> {
    let every_third = |tips: usize| (0..tips).fold(0, |set, tip| set | 1 << (3 * tip));
    let mut boards = vec![
        // Three tips with 10 pairs, or two with 9.
        counted(3, &[(0b011, 3), (0b101, 2), (0b010, 1), (0b100, 1)]),
        // Every pair of four tips, where two tips never serve all.
        Board::of_sets(4, &[0b0011, 0b0101, 0b1001, 0b0110, 0b1010, 0b1100]),
        Board::of_sets(64, &[every_third(20), 1 << 57, 1 << 3]),
        Board::of_sets(64, &[every_third(21)]),
        Board::of_sets(20, &[(1 << 20) - 1]),
        Board::of_sets(21, &[(1 << 21) - 1]),
    ];
    let mixed: Vec<(u64, u8)> =
        (0..512_usize).map(|line| (1 << (3 * (line % 20)) | 1 << (3 * (line * 7 % 19)), 1 + line as u8 % 7)).collect();
    boards.push(counted(58, &mixed));
    boards
}

/// Hands on every board of a rack with this many lines and these quantities.
pub fn every_board<E>(
    rack: usize,
    quantities: &[u8],
    lines: usize,
    hand_on: &mut dyn FnMut(Board) -> Result<(), E>,
) -> Result<(), E> {
    let choices: Vec<Line> =
        (1..1 << rack).flat_map(|set| quantities.iter().map(move |&quantity| Line { set, quantity })).collect();
    let mut chosen = vec![0; lines];
    loop {
        let board: Vec<Line> = chosen.iter().map(|&choice| choices[choice]).collect();
        hand_on(Board::of_lines(rack, &board))?;
        let Some(line) = chosen.iter().position(|&choice| choice + 1 < choices.len()) else {
            return Ok(());
        };
        chosen[..line].fill(0);
        chosen[line] += 1;
    }
}

/// How large a seeded board is.
#[derive(Clone, Copy, PartialEq, Eq)]
pub enum Size {
    Small,
    Middle,
    /// About as large as the Junior takes, mostly on two tips that serve every line.
    Junior,
    /// Many lines on few tips.
    Long,
    Large,
}

/// A seeded board of this size.
pub fn seeded_board(random: &mut Random, size: Size) -> Board {
    let (rack, count) = match size {
        Size::Small => (random.from_to(1, 6), random.from_to(0, 10)),
        Size::Middle => {
            let any = random.from_to(1, 64);
            (random.one_of(&[1, 2, 8, 63, 64, any, any, any]), random.from_to(0, 48))
        }
        Size::Junior => {
            let lines = random.from_to(1, 66);
            (random.from_to(2, 9), random.one_of(&[3, 5, 8, lines, lines, 64, 65]))
        }
        Size::Long => (random.from_to(1, 12), random.from_to(49, 512)),
        Size::Large => {
            let any = random.from_to(1, 64);
            let lines = random.from_to(49, 512);
            (random.one_of(&[1, 64, any, any]), random.one_of(&[0, 511, 512, 512, lines, lines, lines]))
        }
    };
    let sets = if size == Size::Junior {
        seeded_sets_on_two_tips(random, rack, count)
    } else if random.once_in(3) {
        seeded_sets_with_absent_tips(random, rack, count)
    } else {
        seeded_sets(random, rack, count)
    };
    let quantities = seeded_quantities(random, count);
    let lines: Vec<Line> = sets.into_iter().zip(quantities).map(|(set, quantity)| Line { set, quantity }).collect();
    Board::of_lines(rack, &lines)
}

/// A job file of the board: in the version that it is written in, and where it can be the first, sometimes the second.
pub fn seeded_file(random: &mut Random, board: &Board) -> Vec<u8> {
    if random.once_in(4) {
        file_in(board, Version::Two)
    } else {
        file_of(board)
    }
}

/// Quantities of one seeded shape, together at most as many placements as there may be.
fn seeded_quantities(random: &mut Random, count: usize) -> Vec<u8> {
    let mut quantities = vec![1_u8; count];
    let shape = random.below(9);
    for quantity in &mut quantities {
        *quantity = match shape {
            0..=2 => 1,
            3 => random.from_to(1, 2) as u8,
            4 => random.from_to(1, 3) as u8,
            5 => random.from_to(1, 7) as u8,
            6 => random.one_of(&[1, 1, 1, 2, 127, 128, 255]),
            _ => random.from_to(1, 255) as u8,
        };
    }
    // One line alone has another quantity.
    if shape == 2 && count > 0 && random.once_in(3) {
        quantities[random.below(count)] = random.from_to(2, 255) as u8;
    }
    // Each line keeps 1 at least; the others get what room there is, from any line on.
    let mut room = MOST_PLACEMENTS - count;
    let first = if count > 0 { random.below(count) } else { 0 };
    for turn in 0..count {
        let quantity = &mut quantities[(first + turn) % count];
        let wanted = if shape == 8 { 255 } else { *quantity };
        let more = room.min(usize::from(wanted - 1));
        *quantity = 1 + more as u8;
        room -= more;
    }
    quantities
}

/// Sets of one seeded shape: with few or many ties, with or without runs.
fn seeded_sets(random: &mut Random, rack: usize, count: usize) -> Vec<u64> {
    let mut lines = Vec::with_capacity(count);
    let shape = random.below(12);
    let density = random.from_to(1, 7);
    let width = random.from_to(1, rack);
    let common = random.below(rack);
    let turn = random.from_to(1, rack);
    let number = random.from_to(1, 4);
    let few_sets: Vec<u64> = (0..number).map(|_| any_set(random, rack, density)).collect();
    let few_runs: Vec<u64> = (0..number + 2).map(|_| any_run(random, rack, width)).collect();
    for line in 0..count {
        let set = match shape {
            0 => any_set(random, rack, density),
            1 | 2 => any_run(random, rack, width),
            3 => any_run(random, rack, width.min(3)),
            4 => 1 << random.below(rack),
            5 => random.one_of(&few_sets),
            6 => random.one_of(&few_runs),
            // Nearly every line has one tip in common.
            7 if random.once_in(8) => any_set(random, rack, density),
            7 => any_set(random, rack, density) | 1 << common,
            // Every tip about equally often.
            8 => rotated(few_sets[0], rack, line * turn % rack),
            9 => rotated(run(0, width - 1), rack, line * turn % rack),
            // Single even tips and runs of two tips, where quick often has fewer pairs than best.
            10 if rack >= 3 => {
                let even = 2 * random.below(rack.div_ceil(2));
                let choices = [1 << even, run(even, (even + 1).min(rack - 1)), run(even.max(1) - 1, even)];
                random.one_of(&choices)
            }
            // Runs that all have one tip in common.
            _ => run(common - random.below(common + 1), common + random.below(rack - common)),
        };
        lines.push(set);
    }
    // One line that is no run among runs.
    if rack >= 3 && count > 0 && matches!(shape, 1..=4 | 6) && random.once_in(4) {
        let first = random.below(rack - 2);
        lines[random.below(count)] = 1 << first | 1 << random.from_to(first + 2, rack - 1);
    }
    lines
}

/// The same on some tips of the rack alone; sometimes one line has another tip, which the lines around it then lack.
fn seeded_sets_with_absent_tips(random: &mut Random, rack: usize, count: usize) -> Vec<u64> {
    let density = random.from_to(1, 6);
    let named = any_set(random, rack, density);
    let places: Vec<usize> = (0..rack).filter(|tip| named >> tip & 1 == 1).collect();
    let mut sets = seeded_sets(random, places.len(), count);
    sets.iter_mut().for_each(|set| *set = at_places(*set, &places));
    if count > 0 && random.once_in(3) {
        let (line, tip) = (random.below(count), 1 << random.below(rack));
        sets[line] = random.one_of(&[tip, sets[line] | tip]);
    }
    sets
}

/// Sets that each have one of a few pairs of tips; sometimes one line has neither of the first pair.
fn seeded_sets_on_two_tips(random: &mut Random, rack: usize, count: usize) -> Vec<u64> {
    let (u, v) = (random.below(rack), random.below(rack));
    let density = random.below(5);
    let chance = random.from_to(1, 4);
    let mut sets = Vec::with_capacity(count);
    for _ in 0..count {
        let own = if random.below(5) < chance { u } else { v };
        sets.push(1 << own | if density == 0 { 0 } else { any_set(random, rack, density) });
    }
    if count > 0 && random.once_in(8) {
        sets[random.below(count)] = 1 << random.below(rack);
    }
    sets
}

/// A set that is not empty, each tip being in it with this many chances of 8.
fn any_set(random: &mut Random, rack: usize, density: usize) -> u64 {
    let mut set = 1 << random.below(rack);
    for tip in 0..rack {
        if random.below(8) < density {
            set |= 1 << tip;
        }
    }
    set
}

/// A run of at most this many tips.
fn any_run(random: &mut Random, rack: usize, width: usize) -> u64 {
    let tips = random.from_to(1, width);
    let first = random.below(rack - tips + 1);
    run(first, first + tips - 1)
}

/// The set with every tip moved up within the rack.
fn rotated(set: u64, rack: usize, by: usize) -> u64 {
    let moved = u128::from(set) << by;
    let within = (1_u128 << rack) - 1;
    ((moved & within) | (moved >> rack)) as u64
}

#[cfg(test)]
mod tests {
    use second::refusal;

    use super::*;
    use crate::files::board_in;

    #[test]
    fn seeded_boards_are_sound_and_the_same_for_one_seed() {
        for size in [Size::Small, Size::Middle, Size::Junior, Size::Long, Size::Large] {
            for seed in 0..500 {
                let board = seeded_board(&mut Random::new(seed), size);
                assert!(board.is_sound());
                assert_eq!(board, seeded_board(&mut Random::new(seed), size));
                assert_eq!(board_in(&file_of(&board)).as_ref(), Ok(&board));
                assert_eq!(board_in(&seeded_file(&mut Random::new(seed), &board)), Ok(board));
            }
        }
    }

    #[test]
    fn absent_tips_are_frequent_and_so_are_lines_that_miss_a_named_one() {
        let (mut taken, mut refused) = (0, 0);
        for seed in 0..2000 {
            let board = seeded_board(&mut Random::new(seed), Size::Middle);
            let number = board.clone().best(None, &mut [0; 512], &mut [0; 4096]).number;
            taken += usize::from(number == 0 && !board.lines().all(|line| is_unbroken(line.set)));
            refused += usize::from(number == refusal::NO_RUN);
        }
        assert!(taken > 100 && refused > 200, "{taken} {refused}");
    }

    #[test]
    fn seeded_quantities_are_of_every_kind() {
        let all: Vec<Vec<u8>> = (0..400).map(|seed| seeded_quantities(&mut Random::new(seed), 12)).collect();
        let total = |quantities: &Vec<u8>| quantities.iter().map(|&quantity| usize::from(quantity)).sum::<usize>();
        assert!(all.iter().all(|quantities| total(quantities) <= MOST_PLACEMENTS));
        for count in [12, 13, 24, MOST_PLACEMENTS] {
            assert!(all.iter().any(|quantities| total(quantities) == count), "{count}");
        }
        for quantity in [1, 2, 127, 128, 255] {
            assert!(all.iter().any(|quantities| quantities.contains(&quantity)), "{quantity}");
        }
    }

    #[test]
    fn every_board_is_handed_on_once() {
        let mut seen = Vec::new();
        for (quantities, boards) in [(&[1][..], 27), (&[1, 2, 5], 729)] {
            every_board::<()>(2, quantities, 3, &mut |board| {
                assert!(board.is_sound() && !seen.contains(&board));
                seen.push(board);
                Ok(())
            })
            .unwrap();
            assert_eq!(seen.len(), boards);
            seen.clear();
        }
    }

    #[test]
    fn fixed_boards_are_sound() {
        assert!(fixed_boards().iter().all(Board::is_sound));
    }
}
