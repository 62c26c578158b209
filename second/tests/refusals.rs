//! Every refusal of every call, with its place, and that nothing else changes.

use second::{interface, read, refusal, Along, Answer, Board, Exact, Junior, Line, Stage, Version, LONGEST_FILE};

/// A closed board of rack 3 with the lines {0}, {1,2}.
fn closed_board() -> Board {
    Board::of_sets(3, &[0b001, 0b110])
}

/// A closed board of rack 3 with the lines {0} and {1,2}, of 2 and 3 placements.
fn counted_board() -> Board {
    with_quantities(&closed_board(), &[(0, 2), (1, 3)])
}

fn with_stage(board: Board, stage: Stage) -> Board {
    Board { stage, ..board }
}

/// The board with these sets at their places.
fn with_sets(board: &Board, sets: &[(usize, u64)]) -> Board {
    let mut board = board.clone();
    for &(place, set) in sets {
        board.sets[place] = set;
    }
    board
}

/// The board with these quantities at their places.
fn with_quantities(board: &Board, quantities: &[(usize, u8)]) -> Board {
    let mut board = board.clone();
    for &(place, quantity) in quantities {
        board.quantities[place] = quantity;
    }
    board
}

/// Nine lines of 255 placements, of which the last passes 2,048.
fn nine_of_255() -> Board {
    Board::of_lines(3, &[Line { set: 1, quantity: 255 }; 9])
}

/// Boards that are unsound in each way and in several at once, with the refusal's number and place.
fn unsound_boards() -> Vec<(Board, u32, usize)> {
    let sound = closed_board();
    let empty = Board { count: 0, sets: [0; 512], quantities: [0; 512], ..sound.clone() };
    let full = Board { count: 512, sets: [1; 512], quantities: [1; 512], ..sound.clone() };
    let wrong = with_sets(&sound, &[(1, 0), (2, 1), (511, 1)]);
    let wrong_quantities = with_quantities(&sound, &[(1, 0), (2, 1), (511, 1)]);
    let passing = nine_of_255();
    vec![
        (Board { rack: 0, ..sound.clone() }, refusal::UNSOUND_BOARD, 0),
        (Board { rack: 0, ..empty.clone() }, refusal::UNSOUND_BOARD, 0),
        (Board { rack: 65, ..sound.clone() }, refusal::UNSOUND_BOARD, 0),
        (Board { rack: usize::MAX, ..sound.clone() }, refusal::UNSOUND_BOARD, 0),
        (Board { count: 513, ..full.clone() }, refusal::UNSOUND_BOARD, 0),
        (Board { count: usize::MAX, ..full.clone() }, refusal::UNSOUND_BOARD, 0),
        // The numbers come before the sets.
        (Board { rack: 0, ..wrong.clone() }, refusal::UNSOUND_BOARD, 0),
        (Board { count: 513, ..wrong.clone() }, refusal::UNSOUND_BOARD, 0),
        (with_sets(&sound, &[(0, 0)]), refusal::UNSOUND_LINE, 0),
        (with_sets(&sound, &[(0, 0b1001)]), refusal::UNSOUND_LINE, 0),
        (with_sets(&sound, &[(1, 0)]), refusal::UNSOUND_LINE, 1),
        (with_sets(&sound, &[(0, 1 << 63), (1, 0)]), refusal::UNSOUND_LINE, 0),
        (Board { count: 3, ..sound.clone() }, refusal::UNSOUND_LINE, 2),
        (with_sets(&full, &[(511, 0)]), refusal::UNSOUND_LINE, 511),
        (with_sets(&full, &[(300, 8), (511, 0)]), refusal::UNSOUND_LINE, 300),
        // The lines come before the sets after them.
        (wrong.clone(), refusal::UNSOUND_LINE, 1),
        (with_sets(&sound, &[(2, 1)]), refusal::HELD_BEHIND, 2),
        (with_sets(&sound, &[(511, 1)]), refusal::HELD_BEHIND, 511),
        (with_sets(&sound, &[(2, 8), (511, 1)]), refusal::HELD_BEHIND, 2),
        (Board { count: 511, ..full.clone() }, refusal::HELD_BEHIND, 511),
        (Board { count: 0, ..full.clone() }, refusal::HELD_BEHIND, 0),
        (with_sets(&empty, &[(511, 1)]), refusal::HELD_BEHIND, 511),
        // The same of quantities.
        (Board { rack: 65, ..wrong_quantities.clone() }, refusal::UNSOUND_BOARD, 0),
        (with_quantities(&sound, &[(0, 0)]), refusal::UNSOUND_LINE, 0),
        (with_quantities(&sound, &[(1, 0)]), refusal::UNSOUND_LINE, 1),
        (with_quantities(&full, &[(511, 0)]), refusal::UNSOUND_LINE, 511),
        (wrong_quantities, refusal::UNSOUND_LINE, 1),
        (with_quantities(&sound, &[(2, 1)]), refusal::HELD_BEHIND, 2),
        (with_quantities(&sound, &[(511, 255)]), refusal::HELD_BEHIND, 511),
        (with_quantities(&empty, &[(0, 1)]), refusal::HELD_BEHIND, 0),
        // The first place that is wrong in any way.
        (with_sets(&with_quantities(&sound, &[(0, 0)]), &[(1, 0)]), refusal::UNSOUND_LINE, 0),
        (with_quantities(&with_sets(&sound, &[(0, 8)]), &[(1, 0)]), refusal::UNSOUND_LINE, 0),
        (with_sets(&with_quantities(&sound, &[(2, 1)]), &[(3, 1)]), refusal::HELD_BEHIND, 2),
        (with_quantities(&with_sets(&sound, &[(2, 1)]), &[(3, 1)]), refusal::HELD_BEHIND, 2),
        // The total passes with a line, and what follows it is not looked at.
        (passing.clone(), refusal::UNSOUND_LINE, 8),
        (with_quantities(&passing, &[(8, 9)]), refusal::UNSOUND_LINE, 8),
        (with_quantities(&passing, &[(8, 0)]), refusal::UNSOUND_LINE, 8),
        (with_sets(&passing, &[(4, 0)]), refusal::UNSOUND_LINE, 4),
        (Board { count: 10, ..with_quantities(&passing, &[(9, 1)]) }, refusal::UNSOUND_LINE, 8),
        (with_quantities(&passing, &[(9, 1)]), refusal::UNSOUND_LINE, 8),
        (with_quantities(&Board { quantities: [4; 512], ..full }, &[(0, 5)]), refusal::UNSOUND_LINE, 511),
    ]
}

fn assert_refused<T: PartialEq + std::fmt::Debug>(
    answer: Answer<T>,
    board: &Board,
    number: u32,
    place: usize,
    value: T,
) {
    assert_eq!((answer.number, answer.place), (number, place));
    assert_eq!(answer.value, value);
    assert_eq!(&answer.board, board);
}

/// Every call that needs a closed board is refused with the number and place and leaves its buffers alone.
fn assert_closed_calls_refused(board: &Board, number: u32, place: usize) {
    // Buffers both too short and long enough: the state is looked at first.
    for length in [0, 5000] {
        let mut plan = vec![7_u8; length];
        let mut table = vec![7_u32; length];
        let mut out = vec![7_u8; length];
        assert_refused(board.clone().common_tip(), board, number, place, Default::default());
        assert_refused(board.clone().keep_within(0), board, number, place, 0);
        assert_refused(board.clone().keep_within(u16::MAX), board, number, place, 0);
        assert_refused(board.clone().junior(&mut plan), board, number, place, Junior::default());
        assert_refused(board.clone().goal(0), board, number, place, ());
        assert_refused(board.clone().goal(u32::MAX), board, number, place, ());
        assert_refused(board.clone().quick(None, &mut plan), board, number, place, 0);
        assert_refused(board.clone().best(None, &mut plan, &mut table), board, number, place, 0);
        assert_refused(board.clone().along(None, &mut plan), board, number, place, Along::default());
        assert_refused(board.clone().exact(None, 0, &mut plan, &mut table), board, number, place, Exact::default());
        assert_refused(board.clone().check(&plan, 7, &table), board, number, place, ());
        assert_refused(board.clone().write(&mut out), board, number, place, 0);
        assert!(plan.iter().all(|&byte| byte == 7));
        assert!(table.iter().all(|&place| place == 7));
        assert!(out.iter().all(|&byte| byte == 7));
    }
}

/// A good line, and one of each fault.
const LINES_TO_ADD: [(u64, u8); 4] = [(1, 1), (0, 1), (1 << 3, 1), (1, 0)];

#[test]
fn unsound_boards_are_refused_by_every_call() {
    for (board, number, place) in unsound_boards() {
        assert!(!board.is_sound());
        for stage in [Stage::Open, Stage::Closed] {
            let board = with_stage(board.clone(), stage);
            for (set, quantity) in LINES_TO_ADD {
                assert_refused(board.clone().add(set, quantity), &board, number, place, ());
            }
            assert_refused(board.clone().close(), &board, number, place, ());
            assert_closed_calls_refused(&board, number, place);
        }
    }
}

#[test]
fn closed_board_takes_no_line_and_no_close() {
    let full = Board::of_sets(1, &[1; 512]);
    let most_placements = with_quantities(&nine_of_255(), &[(8, 8)]);
    for board in [closed_board(), full, most_placements] {
        for (set, quantity) in LINES_TO_ADD {
            assert_refused(board.clone().add(set, quantity), &board, refusal::BOARD_CLOSED, 0, ());
        }
        assert_refused(board.clone().close(), &board, refusal::BOARD_CLOSED, 0, ());
    }
}

#[test]
fn open_board_gives_no_plan_and_no_file() {
    assert_closed_calls_refused(&with_stage(closed_board(), Stage::Open), refusal::BOARD_OPEN, 0);
    let mut no_runs = with_stage(closed_board(), Stage::Open);
    no_runs.sets[0] = 0b101;
    assert_closed_calls_refused(&no_runs, refusal::BOARD_OPEN, 0);
}

#[test]
fn add_refuses_bad_sets() {
    for rack in 1..=64 {
        let board = Board::open(rack).board;
        // The set is looked at before the quantity.
        for quantity in [0, 1] {
            assert_refused(board.clone().add(0, quantity), &board, refusal::EMPTY_LINE, 0, ());
        }
        for tip in 0..64 {
            for quantity in [0, 1, 255] {
                let number = if tip >= rack {
                    refusal::TIP_OUTSIDE
                } else if quantity == 0 {
                    refusal::ZERO_QUANTITY
                } else {
                    0
                };
                let answer = board.clone().add(1 | 1 << tip, quantity);
                assert_eq!((answer.number, answer.place), (number, 0));
                assert_eq!(answer.board.count, usize::from(number == 0));
            }
        }
    }
}

#[test]
fn add_refuses_more_placements_than_2048() {
    let mut board = Board::open(3).board;
    for _ in 0..8 {
        board = board.add(1, 255).board;
    }
    for (set, quantity, number) in [
        (1, 9, refusal::TOO_MANY_PLACEMENTS),
        (1, 255, refusal::TOO_MANY_PLACEMENTS),
        (1, 0, refusal::ZERO_QUANTITY),
        (0, 9, refusal::EMPTY_LINE),
        (8, 9, refusal::TIP_OUTSIDE),
    ] {
        assert_refused(board.clone().add(set, quantity), &board, number, 0, ());
    }
    let board = board.add(1, 8).board;
    assert_eq!((board.count, board.placements().len()), (9, 2048));
    assert_refused(board.clone().add(1, 1), &board, refusal::TOO_MANY_PLACEMENTS, 0, ());
    assert_refused(board.clone().add(1, 0), &board, refusal::ZERO_QUANTITY, 0, ());
    assert_eq!(board.clone().close().board.stage, Stage::Closed);
    // A board with all lines is full, whatever is added.
    let mut full = Board::open(3).board;
    for _ in 0..512 {
        full = full.add(1, 4).board;
    }
    for (set, quantity) in LINES_TO_ADD {
        assert_refused(full.clone().add(set, quantity), &full, refusal::TOO_MANY_LINES, 0, ());
    }
}

#[test]
fn short_buffers() {
    let board = closed_board();
    for length in 0..2 {
        let mut plan = vec![7; length];
        let mut table = vec![7; 9];
        assert_refused(board.clone().quick(None, &mut plan), &board, refusal::SHORT_PLAN, 0, 0);
        assert_refused(board.clone().best(None, &mut plan, &mut table), &board, refusal::SHORT_PLAN, 0, 0);
        // The plan is looked at before the table.
        assert_refused(board.clone().best(None, &mut plan, &mut table[..8]), &board, refusal::SHORT_PLAN, 0, 0);
        assert_refused(board.clone().check(&plan, 7, &table), &board, refusal::SHORT_PLAN, 0, ());
        assert_refused(board.clone().check(&plan, 7, &table[..8]), &board, refusal::SHORT_PLAN, 0, ());
        assert_eq!((plan, table), (vec![7; length], vec![7; 9]));
    }
    let no_runs = Board::of_sets(3, &[0b010, 0b101]);
    for length in 0..9 {
        let mut plan = vec![7; 2];
        let mut table = vec![7; length];
        assert_refused(board.clone().best(None, &mut plan, &mut table), &board, refusal::SHORT_TABLE, 0, 0);
        assert_refused(board.clone().check(&plan, 7, &table), &board, refusal::SHORT_TABLE, 0, ());
        // The table is looked at before the runs.
        assert_refused(no_runs.clone().best(None, &mut plan, &mut table), &no_runs, refusal::SHORT_TABLE, 0, 0);
        assert_refused(no_runs.clone().check(&plan, 7, &table), &no_runs, refusal::SHORT_TABLE, 0, ());
        assert_eq!((plan, table), (vec![7; 2], vec![7; length]));
    }
    // By the length of the version that is written.
    for (board, needed) in [(board, 24), (counted_board(), 26)] {
        for length in 0..needed {
            let mut out = vec![7; length];
            assert_refused(board.clone().write(&mut out), &board, refusal::SHORT_OUTPUT, 0, 0);
            assert_eq!(out, vec![7; length]);
        }
        let mut out = vec![7; needed + 3];
        assert_eq!(board.clone().write(&mut out).value, needed);
        assert_eq!((&out[..needed], &out[needed..]), (&board.file()[..], &[7; 3][..]));
    }
}

#[test]
fn no_run_names_the_first_such_line() {
    for line in 0..512 {
        // The line and those after it miss tips that some other line has: one before it, or for line 0 the last.
        let mut board = Board::of_sets(64, &[u64::MAX; 512]);
        board.sets[line..512.min(line + 511)].fill(1 | 1 << 63);
        let mut plan = [7; 512];
        let mut table = [7; 4096];
        assert_refused(board.clone().best(None, &mut plan, &mut table), &board, refusal::NO_RUN, line, 0);
        assert_refused(board.clone().check(&plan, 7, &table), &board, refusal::NO_RUN, line, ());
        assert_refused(board.clone().goal(u32::MAX), &board, refusal::NO_RUN, line, ());
        assert_eq!((plan, table), ([7; 512], [7; 4096]));
    }
}

#[test]
fn keep_margin_is_signed() {
    let sets: Vec<u64> = (0..512).map(|line| 1 << (line % 64)).collect();
    let board = Board::of_sets(64, &sets);
    assert_refused(board.clone().keep_within(0), &board, refusal::NO_PLAN, 0, -504);
    assert_refused(board.clone().keep_within(503), &board, refusal::NO_PLAN, 0, -1);
    for (k, margin) in [(504, 0), (505, 1), (u16::MAX, 65_031)] {
        assert_refused(board.clone().keep_within(k), &board, 0, 0, margin);
    }
    // Four placements a line: 32 of 2,048 on each tip.
    let board = Board { quantities: [4; 512], ..board };
    assert_refused(board.clone().keep_within(0), &board, refusal::NO_PLAN, 0, -2016);
    assert_refused(board.clone().keep_within(2015), &board, refusal::NO_PLAN, 0, -1);
    for (k, margin) in [(2016, 0), (2017, 1), (u16::MAX, 63_519)] {
        assert_refused(board.clone().keep_within(k), &board, 0, 0, margin);
    }
}

/// A call of the interface with its answer.
type Call<'a> = &'a mut dyn FnMut(&mut [u64]) -> u32;

/// Bytes to change in a file: where, and to what.
type Changes = [(usize, u8)];

fn assert_not_read(file: &[u8], number: u32, place: usize) {
    let answer = read(file);
    assert_eq!((answer.number, answer.place), (number, place), "{file:02X?}");
    assert_eq!(answer.board, Board { rack: 1, stage: Stage::Open, count: 0, sets: [0; 512], quantities: [0; 512] });
    // Every function on files gives the same refusal, before it looks at its own buffers.
    for length in [0, 5000] {
        let (mut plan, mut out, mut table) = (vec![7; length], vec![7; length], vec![7; length]);
        let mut other_plan = plan.clone();
        let (other, others) = (vec![7; length], vec![7; length]);
        let mut other_out = out.clone();
        let mut junior_plan = plan.clone();
        let (mut along_plan, mut exact_plan, mut exact_table) = (plan.clone(), plan.clone(), table.clone());
        let calls: [Call; 10] = [
            &mut |answer| interface::exact(file, interface::NO_TIP, 1, &mut exact_plan, &mut exact_table, answer),
            &mut |answer| interface::along(file, interface::NO_TIP, &mut along_plan, answer),
            &mut |answer| interface::junior(file, &mut junior_plan, answer),
            &mut |answer| interface::goal(file, u32::MAX, &mut other_out, answer),
            &mut |answer| interface::check(file, &other, 7, &others, answer),
            &mut |answer| interface::read(file, answer),
            &mut |answer| interface::common(file, answer),
            &mut |answer| interface::keep(file, 0, &mut out, answer),
            &mut |answer| interface::quick(file, interface::NO_TIP, &mut other_plan, answer),
            &mut |answer| interface::best(file, interface::NO_TIP, &mut plan, &mut table, answer),
        ];
        for call in calls {
            let mut answer = [9; 6];
            assert_eq!(call(&mut answer), number);
            assert_eq!(answer, [place as u64, 0, 0, 0, 9, 9]);
        }
        assert_eq!(exact_table, vec![7; length]);
        for plan in [plan, other_plan, junior_plan, along_plan, exact_plan] {
            assert_eq!(plan, vec![7; length]);
        }
        assert_eq!((out, other_out, table), (vec![7; length], vec![7; length], vec![7; length]));
    }
}

#[test]
fn read_refusals_in_order() {
    let good = closed_board().file();
    assert_eq!(read(&good).number, 0);
    assert_eq!(read(&good).board, closed_board());
    for length in 0..24 {
        assert_not_read(&good[..length], if length < 8 { refusal::SHORT_FILE } else { refusal::FILE_LENGTH }, 0);
    }
    let mut longer = good.clone();
    longer.push(0);
    assert_not_read(&longer, refusal::FILE_LENGTH, 0);
    let changed = |changes: &Changes| {
        let mut file = good.clone();
        for &(place, byte) in changes {
            file[place] = byte;
        }
        file
    };
    // Each damage together with every later one.
    let damages: [(&Changes, u32, usize); 7] = [
        (&[(0, b't')], refusal::WRONG_MARK, 0),
        (&[(4, 3)], refusal::WRONG_VERSION, 0),
        (&[(5, 0)], refusal::RACK_SIZE, 0),
        (&[(6, 2), (7, 1)], refusal::FILE_LINES, 0),
        (&[(6, 0), (7, 1)], refusal::FILE_LENGTH, 0),
        (&[(15, 0)], refusal::EMPTY_LINE, 0),
        (&[(22, 1)], refusal::TIP_OUTSIDE, 1),
    ];
    for first in 0..damages.len() {
        let mut changes = Vec::new();
        for damage in damages[first..].iter().rev() {
            changes.extend_from_slice(damage.0);
        }
        assert_not_read(&changed(damages[first].0), damages[first].1, damages[first].2);
        assert_not_read(&changed(&changes), damages[first].1, damages[first].2);
    }
    for byte in 0..3 {
        assert_not_read(&changed(&[(byte, 0)]), refusal::WRONG_MARK, 0);
    }
    // The lengths are those of the version's own lines.
    assert_not_read(&changed(&[(4, 2)]), refusal::FILE_LENGTH, 0);
    for version in [0, 3, 0x100, 0x101, 0x102, 0x200, 0xFFFF] {
        let bytes = u16::to_be_bytes(version);
        assert_not_read(&changed(&[(3, bytes[0]), (4, bytes[1])]), refusal::WRONG_VERSION, 0);
    }
    for rack in [0, 65, 128, 255] {
        assert_not_read(&changed(&[(5, rack)]), refusal::RACK_SIZE, 0);
    }
    for count in [513, 514, 1026, 0xFFFF] {
        let bytes = u16::to_be_bytes(count);
        assert_not_read(&changed(&[(6, bytes[0]), (7, bytes[1])]), refusal::FILE_LINES, 0);
    }
    // The first bad line counts, whatever is wrong with it.
    assert_not_read(&changed(&[(15, 0), (22, 1)]), refusal::EMPTY_LINE, 0);
    assert_not_read(&changed(&[(14, 1), (23, 0)]), refusal::TIP_OUTSIDE, 0);
    assert_not_read(&changed(&[(23, 0)]), refusal::EMPTY_LINE, 1);
}

/// Both versions of a board with these quantities.
fn counted_file(quantities: &[u8]) -> Vec<u8> {
    let lines: Vec<Line> = quantities.iter().map(|&quantity| Line { set: 0b101, quantity }).collect();
    Board::of_lines(3, &lines).file_in(Version::Two)
}

#[test]
fn second_version_refusals_in_order() {
    let good = counted_board().file();
    assert_eq!(good[..8], *b"TIP\x00\x02\x03\x00\x02");
    assert_eq!(good[8..], [0, 0, 0, 0, 0, 0, 0, 1, 2, 0, 0, 0, 0, 0, 0, 0, 6, 3]);
    assert_eq!((read(&good).number, read(&good).board), (0, counted_board()));
    for length in 0..26 {
        assert_not_read(&good[..length], if length < 8 { refusal::SHORT_FILE } else { refusal::FILE_LENGTH }, 0);
    }
    assert_not_read(&[&good[..], &[1]].concat(), refusal::FILE_LENGTH, 0);
    let changed = |changes: &Changes| {
        let mut file = good.clone();
        for &(place, byte) in changes {
            file[place] = byte;
        }
        file
    };
    let damages: [(&Changes, u32, usize); 8] = [
        (&[(0, b't')], refusal::WRONG_MARK, 0),
        (&[(3, 2)], refusal::WRONG_VERSION, 0),
        (&[(5, 65)], refusal::RACK_SIZE, 0),
        (&[(6, 2), (7, 1)], refusal::FILE_LINES, 0),
        (&[(4, 1)], refusal::FILE_LENGTH, 0),
        (&[(14, 1)], refusal::TIP_OUTSIDE, 0),
        (&[(16, 0)], refusal::ZERO_QUANTITY, 0),
        (&[(24, 0)], refusal::EMPTY_LINE, 1),
    ];
    for first in 0..damages.len() {
        let mut changes = Vec::new();
        for damage in damages[first..].iter().rev() {
            changes.extend_from_slice(damage.0);
        }
        assert_not_read(&changed(damages[first].0), damages[first].1, damages[first].2);
        assert_not_read(&changed(&changes), damages[first].1, damages[first].2);
    }
    // The set of a line is looked at before its quantity, and an earlier line before a later one.
    assert_not_read(&changed(&[(15, 0), (16, 0)]), refusal::EMPTY_LINE, 0);
    assert_not_read(&changed(&[(16, 0), (24, 0)]), refusal::ZERO_QUANTITY, 0);
    assert_not_read(&changed(&[(25, 0)]), refusal::ZERO_QUANTITY, 1);
    assert_not_read(&changed(&[(24, 8), (25, 0)]), refusal::TIP_OUTSIDE, 1);
}

#[test]
fn files_of_too_many_placements() {
    let most = [255, 255, 255, 255, 255, 255, 255, 255, 8];
    assert_eq!(read(&counted_file(&most)).board.placements().len(), 2048);
    assert_eq!(read(&counted_file(&[4; 512])).number, 0);
    for (quantities, place) in [
        (&[255, 255, 255, 255, 255, 255, 255, 255, 9][..], 8),
        (&[9, 255, 255, 255, 255, 255, 255, 255, 255], 8),
        (&[255, 255, 255, 255, 255, 255, 255, 255, 8, 1], 9),
        (&[255, 255, 255, 255, 255, 255, 255, 255, 9, 1, 255], 8),
        (&[255; 512], 8),
        (&[5; 512], 409),
    ] {
        assert_not_read(&counted_file(quantities), refusal::TOO_MANY_PLACEMENTS, place);
    }
    // Every line is looked at first, also those after the one that passes.
    let passing = counted_file(&[255; 20]);
    for (line, changes, number) in [
        (19, 16, refusal::ZERO_QUANTITY),
        (12, 16, refusal::ZERO_QUANTITY),
        (0, 16, refusal::ZERO_QUANTITY),
        (19, 15, refusal::EMPTY_LINE),
        (19, 14, refusal::TIP_OUTSIDE),
    ] {
        let mut file = passing.clone();
        file[9 * line + changes] = u8::from(number == refusal::TIP_OUTSIDE);
        assert_not_read(&file, number, line);
    }
}

#[test]
fn first_version_is_written_where_every_quantity_is_1() {
    for count in [0, 1, 2, 511, 512] {
        let board = Board::of_sets(3, &vec![0b101; count]);
        let (first, second) = (board.file_in(Version::One), board.file_in(Version::Two));
        assert_eq!((first.len(), second.len()), (8 + 8 * count, 8 + 9 * count));
        assert_eq!((read(&first).board, read(&second).board), (board.clone(), board.clone()));
        assert_eq!(board.file(), first);
        for line in 0..count.min(3) {
            let counted = with_quantities(&board, &[(count - 1 - line, 2)]);
            assert_eq!(counted.file(), counted.file_in(Version::Two));
        }
    }
}

#[test]
fn longest_files_are_read_and_written() {
    for (quantity, length) in [(1, 4104), (4, LONGEST_FILE)] {
        let board = Board::of_lines(64, &[Line { set: u64::MAX, quantity }; 512]);
        let mut file = vec![7; length + 2];
        assert_eq!(board.clone().write(&mut file[..length - 1]).number, refusal::SHORT_OUTPUT);
        assert_eq!(board.clone().write(&mut file).value, length);
        assert_eq!(file[length..], [7, 7]);
        assert_eq!(read(&file[..length]).board, board);
        assert_not_read(&file[..length + 1], refusal::FILE_LENGTH, 0);
    }
}

#[test]
fn interface_answers() {
    let file = closed_board().file();
    for places in 0..4 {
        let mut answer = vec![9; places];
        let (mut plan, mut out, mut table) = ([7; 2], [7; 24], [7; 9]);
        for input in [&file[..], &file[..3]] {
            assert_eq!(interface::read(input, &mut answer), refusal::SHORT_ANSWER);
            assert_eq!(interface::common(input, &mut answer), refusal::SHORT_ANSWER);
            assert_eq!(interface::keep(input, 1, &mut out, &mut answer), refusal::SHORT_ANSWER);
            assert_eq!(interface::goal(input, 1, &mut out, &mut answer), refusal::SHORT_ANSWER);
            assert_eq!(interface::junior(input, &mut plan, &mut answer), refusal::SHORT_ANSWER);
            assert_eq!(interface::quick(input, interface::NO_TIP, &mut plan, &mut answer), refusal::SHORT_ANSWER);
            assert_eq!(
                interface::best(input, interface::NO_TIP, &mut plan, &mut table, &mut answer),
                refusal::SHORT_ANSWER
            );
            assert_eq!(interface::along(input, interface::NO_TIP, &mut plan, &mut answer), refusal::SHORT_ANSWER);
            assert_eq!(
                interface::exact(input, interface::NO_TIP, 0, &mut plan, &mut table, &mut answer),
                refusal::SHORT_ANSWER
            );
            assert_eq!(interface::check(input, &plan, 0, &table, &mut answer), refusal::SHORT_ANSWER);
        }
        assert_eq!((answer, plan, out, table), (vec![9; places], [7; 2], [7; 24], [7; 9]));
    }
    let mut answer = [9; 5];
    assert_eq!(interface::read(&file, &mut answer), 0);
    assert_eq!(answer, [0, 3, 2, 0, 9]);
    assert_eq!(interface::common(&file, &mut answer), 0);
    assert_eq!(answer, [0, 1, 1, 0b111, 9]);
    let mut out = [7; 25];
    // A bound that no plan meets is refused before the length of the output.
    assert_eq!(interface::keep(&file, 0, &mut out[..3], &mut answer), refusal::NO_PLAN);
    assert_eq!(answer, [0, u64::MAX, 0, 0, 9]);
    assert_eq!(interface::keep(&file, 2, &mut out[..23], &mut answer), refusal::SHORT_OUTPUT);
    assert_eq!(answer, [0, 0, 0, 0, 9]);
    assert_eq!(out, [7; 25]);
    assert_eq!(interface::keep(&file, 2, &mut out, &mut answer), 0);
    assert_eq!(answer, [0, 1, 24, 0, 9]);
    assert_eq!((&out[..24], out[24]), (&file[..], 7));
    // Keep needs what it writes: the first version for a file of the second whose quantities are all 1.
    let in_second = closed_board().file_in(Version::Two);
    assert_eq!(interface::keep(&in_second, 2, &mut out[..23], &mut answer), refusal::SHORT_OUTPUT);
    let mut out = [7; 25];
    assert_eq!(interface::keep(&in_second, 2, &mut out[..24], &mut answer), 0);
    assert_eq!(answer, [0, 1, 24, 0, 9]);
    assert_eq!((&out[..24], out[24]), (&file[..], 7));
    let counted = counted_board().file();
    let mut out = [7; 27];
    assert_eq!(interface::keep(&counted, 3, &mut out[..25], &mut answer), refusal::SHORT_OUTPUT);
    assert_eq!(interface::keep(&counted, 3, &mut out, &mut answer), 0);
    assert_eq!(answer, [0, 1, 26, 0, 9]);
    assert_eq!((&out[..26], out[26]), (&counted[..], 7));
    assert_eq!(interface::read(&counted, &mut answer), 0);
    assert_eq!(answer, [0, 3, 2, 0, 9]);
    assert_eq!(interface::common(&counted, &mut answer), 0);
    assert_eq!(answer, [0, 3, 2, 0b110, 9]);
    // {0} of 2 and {1,2} of 3 placements: 1 + 3 pairs.
    for (claim, number) in [(4, refusal::ACCEPTED), (3, refusal::WRONG_CLAIM), (0, refusal::WRONG_CLAIM)] {
        answer = [9; 5];
        assert_eq!(interface::check(&counted, &[0, 2], claim, &[1, 1, 4, 0, 0, 3, 0, 0, 0], &mut answer), number);
        assert_eq!(answer, [0, 0, 0, 0, 9]);
    }
    // A goal is looked at before the length of the output; what is written is in the shorter version.
    let mut out = [7; 27];
    assert_eq!(interface::goal(&counted, 5, &mut out[..3], &mut answer), refusal::GOAL_MISSED);
    assert_eq!(interface::goal(&counted, 4, &mut out[..25], &mut answer), refusal::SHORT_OUTPUT);
    assert_eq!((answer, out), ([0, 0, 0, 0, 9], [7; 27]));
    assert_eq!(interface::goal(&counted, 4, &mut out, &mut answer), 0);
    assert_eq!((answer, &out[..26], out[26]), ([0, 26, 0, 0, 9], &counted[..], 7));
    let mut out = [7; 25];
    assert_eq!(interface::goal(&in_second, 0, &mut out[..24], &mut answer), 0);
    assert_eq!((answer, &out[..24], out[24]), ([0, 24, 0, 0, 9], &file[..], 7));
    // {0} of 2 and {1,2} of 3 placements.
    let mut plan = [7; 3];
    assert_eq!(interface::junior(&counted, &mut plan, &mut answer), 0);
    assert_eq!((answer, plan), ([0, 4, 0, 1, 9], [0, 1, 7]));
    assert_eq!(interface::junior(&counted, &mut plan[..1], &mut answer), refusal::SHORT_PLAN);
    assert_eq!((answer, plan), ([0, 0, 0, 0, 9], [0, 1, 7]));
    let mut text = vec![7; interface::REPORT_SPACE];
    assert_eq!(interface::report(&file, &mut text[1..]), 0);
    assert!(text.iter().all(|&byte| byte == 7));
    let length = interface::report(&file, &mut text);
    assert_eq!(text[..length], second::report(&file));
    assert!(text[length..].iter().all(|&byte| byte == 7));
}
