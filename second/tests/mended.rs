//! Mended files: the rows of the rules, and what holds of every file.

use second::{interface, mend, mended, read, refusal, Board, Line, Mending, Version, MOST_PLACEMENTS};

/// A file with this head and these lines, each a set and a quantity, whether they keep the rules or not.
fn file(version: u8, rack: u8, count: u16, lines: &[(u64, u8)]) -> Vec<u8> {
    let mut bytes = vec![b'T', b'I', b'P', 0, version, rack];
    bytes.extend(count.to_be_bytes());
    for (set, quantity) in lines {
        bytes.extend(set.to_be_bytes());
        if version == 2 {
            bytes.push(*quantity);
        }
    }
    bytes
}

fn first(rack: u8, count: u16, sets: &[u64]) -> Vec<u8> {
    let lines: Vec<(u64, u8)> = sets.iter().map(|&set| (set, 1)).collect();
    file(1, rack, count, &lines)
}

fn second(rack: u8, count: u16, lines: &[(u64, u8)]) -> Vec<u8> {
    file(2, rack, count, lines)
}

/// The report of these changes, line and code; 5 and 6 are of the whole file.
fn report(changes: &[(u16, u8)]) -> Vec<u8> {
    changes.iter().flat_map(|&(line, code)| [(line >> 8) as u8, line as u8, code]).collect()
}

const WHOLE: u16 = 65_535;

/// Mends, and checks that the result is read and that mending it again changes nothing.
fn assert_mended(found: &[u8], file: &[u8], changes: &[(u16, u8)]) {
    let mended_file = mended(found).expect("a good head");
    assert_eq!(mended_file.file, file);
    assert_eq!(mended_file.report(), report(changes));
    assert_sound(found);
}

/// What holds of every file with a good head.
fn assert_sound(found: &[u8]) {
    let once = mended(found).expect("a good head");
    let job = read(&once.file);
    assert_eq!(job.number, 0, "{found:?}");
    let twice = mended(&once.file).expect("a good head");
    assert_eq!((&twice.file, twice.changes.len()), (&once.file, 0));
    // Nothing is changed exactly where reading takes the file.
    assert_eq!(once.changes.is_empty(), read(found).number == 0, "{found:?}");
    assert_eq!(once.changes.is_empty(), once.file == found);
    assert!(once.file.len() <= found.len() && once.report().len() <= 3 * (2 * 512 + 2));
    // Lines rise, and codes rise within a line.
    let order: Vec<(u16, u8)> = once.changes.iter().map(|change| (change.line, change.what as u8)).collect();
    assert!(order.windows(2).all(|pair| pair[0] < pair[1]), "{order:?}");
}

/// The file of 6.3, and B28.
fn example() -> Vec<u8> {
    first(3, 2, &[0b001, 0b110])
}

fn of_version_2() -> Vec<u8> {
    second(3, 2, &[(0b001, 1), (0b110, 1)])
}

#[test]
fn good_files_stay() {
    // B75, B86.
    assert_mended(&example(), &example(), &[]);
    assert_mended(&of_version_2(), &of_version_2(), &[]);
    let last = first(64, 1, &[1 << 63]);
    assert_mended(&last, &last, &[]);
    for board in [Board::of_sets(64, &[u64::MAX; 512]), Board::of_lines(1, &[Line { set: 1, quantity: 4 }; 512])] {
        let whole = board.file();
        assert_mended(&whole, &whole, &[]);
    }
}

#[test]
fn counts_that_do_not_fit() {
    // B76 to B79, B89.
    assert_mended(&first(3, 3, &[1, 6]), &example(), &[(WHOLE, 5)]);
    assert_mended(&first(3, 65_535, &[1, 6]), &example(), &[(WHOLE, 5)]);
    assert_mended(&first(3, 1, &[1, 6]), &first(3, 1, &[1]), &[(WHOLE, 6)]);
    assert_mended(&first(3, 0, &[1, 6]), &first(3, 0, &[]), &[(WHOLE, 6)]);
    assert_mended(&second(3, 513, &[(1, 1), (6, 1)]), &of_version_2(), &[(WHOLE, 5)]);
    let long = [1; 513];
    assert_mended(&first(1, 513, &long), &first(1, 512, &long[1..]), &[(WHOLE, 5), (WHOLE, 6)]);
    assert_mended(&first(1, 512, &long), &first(1, 512, &long[1..]), &[(WHOLE, 6)]);
    assert_mended(&[example(), vec![0]].concat(), &example(), &[(WHOLE, 6)]);
    assert_mended(&example()[..23], &first(3, 1, &[1]), &[(WHOLE, 5), (WHOLE, 6)]);
    assert_mended(&of_version_2()[..25], &second(3, 1, &[(1, 1)]), &[(WHOLE, 5), (WHOLE, 6)]);
    assert_mended(&example()[..8], &first(3, 0, &[]), &[(WHOLE, 5)]);
    assert_mended(&first(3, 0, &[]), &first(3, 0, &[]), &[]);
    assert_mended(&[&example()[..8], &[0; 3]].concat(), &first(3, 0, &[]), &[(WHOLE, 5), (WHOLE, 6)]);
}

#[test]
fn lines_that_are_odd() {
    // B80 to B83.
    let cleared = [(0, 1), (0, 2), (WHOLE, 5)];
    assert_mended(&first(3, 2, &[0b1000, 0b011]), &first(3, 1, &[0b011]), &cleared);
    assert_mended(&first(3, 2, &[3, 2 | 1 << 63]), &first(3, 2, &[3, 2]), &[(1, 1)]);
    assert_mended(&second(3, 2, &[(3, 2), (2 | 1 << 63, 3)]), &second(3, 2, &[(3, 2), (2, 3)]), &[(1, 1)]);
    let kept = second(3, 1, &[(2, 2)]);
    assert_mended(&second(3, 2, &[(0, 0), (2, 2)]), &kept, &[(0, 2), (WHOLE, 5)]);
    assert_mended(&second(3, 2, &[(8, 0), (2, 2)]), &kept, &cleared);
    assert_mended(&second(3, 1, &[(2, 0)]), &second(3, 1, &[(2, 1)]), &[(0, 3)]);
    // Only an empty line: nothing is left.
    assert_mended(&first(3, 1, &[0]), &first(3, 0, &[]), &[(0, 2), (WHOLE, 5)]);
}

#[test]
fn lines_that_pass() {
    // B84, B85.
    let eight = [(1, 255); 8];
    let with = |count: u16, lines: &[(u64, u8)]| second(3, count, &[&eight[..], lines].concat());
    let dropped = [(8, 4), (9, 4), (10, 4), (WHOLE, 5)];
    assert_mended(&with(11, &[(2, 9), (0, 0), (2, 1)]), &with(8, &[]), &dropped);
    assert_mended(&with(11, &[(2, 8), (0, 0), (2, 1)]), &with(9, &[(2, 8)]), &[(9, 2), (10, 4), (WHOLE, 5)]);
    let all = [(9, 1), (9, 3), (9, 4), (WHOLE, 5)];
    assert_mended(&with(10, &[(2, 8), (0b1010, 0)]), &with(9, &[(2, 8)]), &all);
    // A raised quantity counts, and a line that fits does not come back.
    let raised = with(12, &[(2, 7), (4, 0), (4, 255), (4, 1)]);
    assert_mended(&raised, &with(10, &[(2, 7), (4, 1)]), &[(9, 3), (10, 4), (11, 4), (WHOLE, 5)]);
    // The quantity of a dropped line does not count.
    assert_mended(&with(10, &[(0, 255), (2, 8)]), &with(9, &[(2, 8)]), &[(8, 2), (WHOLE, 5)]);
}

#[test]
fn refused_files_and_outputs() {
    // B87.
    let found = first(3, 2, &[0b1000, 0b011]);
    for (out, changes) in [(15, 9), (16, 8), (0, 9), (16, 0), (15, 8)] {
        let (mut to, mut told) = (vec![7; out], vec![7; changes]);
        assert_eq!(mend(&found, &mut to, &mut told), Mending { number: refusal::SHORT_OUTPUT, file: 0, report: 0 });
        assert_eq!((to, told), (vec![7; out], vec![7; changes]));
    }
    let (mut to, mut told) = ([7; 18], [7; 11]);
    assert_eq!(mend(&found, &mut to, &mut told), Mending { number: 0, file: 16, report: 9 });
    assert_eq!((&to[..16], &to[16..]), (&first(3, 1, &[3])[..], &[7; 2][..]));
    assert_eq!((&told[..9], &told[9..]), (&report(&[(0, 1), (0, 2), (WHOLE, 5)])[..], &[7; 2][..]));
    // B88.
    let with = |place: usize, byte: u8| {
        let mut copy = example();
        copy[place] = byte;
        copy
    };
    let mut both = with(2, b'Q');
    both[4] = 3;
    let mut rack_too = with(4, 3);
    rack_too[5] = 0;
    let cases: [(&[u8], u32); 8] = [
        (&example()[..7], 6),
        (&[], 6),
        (&both, 7),
        (&rack_too, 8),
        (&with(4, 0), 8),
        (&with(3, 1), 8),
        (&with(5, 0), 1),
        (&with(5, 65), 1),
    ];
    for (found, number) in cases {
        assert_eq!(mended(found), Err(number));
        let mut answer = [9; 5];
        assert_eq!(interface::mend(found, &mut [], &mut [], &mut answer), number);
        assert_eq!(answer, [0, 0, 0, 0, 9]);
    }
}

#[test]
fn interface_of_mending() {
    let mut answer = [9; 5];
    let (mut out, mut changes) = ([7; 30], [7; 5]);
    assert_eq!(interface::mend(&example()[..23], &mut out, &mut changes, &mut answer), refusal::SHORT_OUTPUT);
    assert_eq!((answer, changes), ([0, 0, 0, 0, 9], [7; 5]));
    assert_eq!(interface::mend(&[example(), vec![9]].concat(), &mut out, &mut changes, &mut answer), 0);
    assert_eq!((answer, changes), ([0, 24, 3, 0, 9], [255, 255, 6, 7, 7]));
    assert_eq!((&out[..24], &out[24..]), (&example()[..], &[7; 6][..]));
    let mut short = [9; 3];
    assert_eq!(interface::mend(&[], &mut out, &mut changes, &mut short), refusal::SHORT_ANSWER);
    assert_eq!(short, [9; 3]);
}

#[test]
fn every_small_file_is_mended() {
    // Rack 2 with sets of up to 3 tips, quantities 0 to 2, every count up to 3, and every cut.
    for version in [1, 2] {
        let lines: Vec<(u64, u8)> = (0..8).flat_map(|set| (0..3).map(move |quantity| (set, quantity))).collect();
        let lines: Vec<(u64, u8)> = lines.into_iter().filter(|line| version == 2 || line.1 == 1).collect();
        for &one in &lines {
            for &other in &lines {
                for count in 0..4 {
                    let whole = file(version, 2, count, &[one, other]);
                    (8..=whole.len()).for_each(|length| assert_sound(&whole[..length]));
                    assert_sound(&[whole, vec![1, 2, 3]].concat());
                }
            }
        }
    }
}

#[test]
fn any_bytes_are_mended() {
    // A splitmix64 generator.
    let mut state = 1_u64;
    let mut number = move || {
        state = state.wrapping_add(0x9E37_79B9_7F4A_7C15);
        let mixed = (state ^ state >> 30).wrapping_mul(0xBF58_476D_1CE4_E5B9);
        (mixed ^ mixed >> 27).wrapping_mul(0x94D0_49BB_1331_11EB) >> 16
    };
    for turn in 0..3000 {
        let length = if turn % 20 == 0 { 4000 + number() % 1000 } else { number() % 300 };
        let mut bytes = vec![b'T', b'I', b'P', 0, 1 + (number() % 2) as u8, 1 + (number() % 64) as u8];
        bytes.extend(((number() % if turn % 3 == 0 { 65_536 } else { 40 }) as u16).to_be_bytes());
        let dense = number() % 3;
        bytes.extend((0..length).map(|_| if number() % 4 < dense { 0 } else { number() as u8 }));
        assert_sound(&bytes);
        let kept = read(&mended(&bytes).expect("a good head").file).board;
        assert!(kept.placements().len() <= MOST_PLACEMENTS);
        // The lines kept stand in the file found, in their order, with their quantity or 1.
        let version = if bytes[4] == 1 { Version::One } else { Version::Two };
        let rack = u64::MAX >> (64 - kept.rack);
        let found: Vec<Line> = (bytes[8..].chunks_exact(version.line()))
            .map(|line| {
                let set = u64::from_be_bytes(line[..8].try_into().expect("8 bytes"));
                Line { set: set & rack, quantity: line.get(8).map_or(1, |&quantity| quantity.max(1)) }
            })
            .collect();
        let mut rest = found.iter();
        assert!(kept.lines().all(|line| rest.any(|other| *other == line)));
    }
}
