//! Job files: bytes worked out by hand, each refusal with its place, the longest files, and what is written read back.

use job_file::{has_mark, refusal, Head, Job, Line, Refusal, Version};
use job_file::{AT_COUNT, AT_RACK, AT_VERSION, HEAD, LONGEST_FILE, MARK, MOST_LINES, MOST_PLACEMENTS, MOST_TIPS};

/// Section 6.3 of the rules: rack 3, lines {0} and {1,2}, each with one placement.
const EXAMPLE: [u8; 24] = [
    0x54, 0x49, 0x50, 0, 1, 3, 0, 2, // TIP, version 1, rack 3, 2 lines
    0, 0, 0, 0, 0, 0, 0, 0b001, // {0}
    0, 0, 0, 0, 0, 0, 0, 0b110, // {1,2}
];

/// The same lines with 10 placements and with 1.
const TEN: [u8; 26] = [
    0x54, 0x49, 0x50, 0, 2, 3, 0, 2, // TIP, version 2, rack 3, 2 lines
    0, 0, 0, 0, 0, 0, 0, 0b001, 10, // {0} x10
    0, 0, 0, 0, 0, 0, 0, 0b110, 1, // {1,2} x1
];

/// The job of these lines, set and quantity.
fn job(rack: usize, lines: &[(u64, u8)]) -> Job {
    Job { rack, lines: lines.iter().map(|&(set, quantity)| Line { set, quantity }).collect() }
}

/// The file with these bytes in the place of others.
fn with(file: &[u8], changes: &[(usize, u8)]) -> Vec<u8> {
    let mut file = file.to_vec();
    changes.iter().for_each(|&(place, byte)| file[place] = byte);
    file
}

/// Number and line of the refusal.
fn refused(file: &[u8]) -> (u32, usize) {
    let Refusal { number, line } = Job::read(file).expect_err("a refused file");
    (number, line)
}

/// Seeded numbers, by xorshift.
struct Random(u64);

impl Random {
    fn below(&mut self, bound: u64) -> u64 {
        self.0 ^= self.0 << 13;
        self.0 ^= self.0 >> 7;
        self.0 ^= self.0 << 17;
        self.0 % bound
    }
}

#[test]
fn bytes_are_those_worked_out_by_hand() {
    assert_eq!(job(3, &[(0b001, 1), (0b110, 1)]).write(), EXAMPLE);
    assert_eq!(job(3, &[(0b001, 10), (0b110, 1)]).write(), TEN);
    assert_eq!(job(1, &[]).write(), *b"TIP\x00\x01\x01\x00\x00");
    assert_eq!(
        job(64, &[(1 << 63 | 0x0023_4567_89AB_CDEF, 255)]).write(),
        [0x54, 0x49, 0x50, 0, 2, 64, 0, 1, 0x80, 0x23, 0x45, 0x67, 0x89, 0xAB, 0xCD, 0xEF, 255]
    );
    let many = job(2, &[(0b10, 1); 0x0102]).write();
    assert_eq!(many[..16], [0x54, 0x49, 0x50, 0, 1, 2, 1, 2, 0, 0, 0, 0, 0, 0, 0, 0b10]);
}

#[test]
fn both_versions_are_read() {
    assert_eq!(Job::read(&EXAMPLE), Ok(job(3, &[(0b001, 1), (0b110, 1)])));
    assert_eq!(Job::read(&TEN), Ok(job(3, &[(0b001, 10), (0b110, 1)])));
    assert_eq!(Job::read(b"TIP\x00\x01\x40\x00\x00"), Ok(job(64, &[])));
    assert_eq!(Job::read(b"TIP\x00\x02\x40\x00\x00"), Ok(job(64, &[])));
}

#[test]
fn version_2_with_quantities_of_1_is_written_as_version_1() {
    // B28 of the rules.
    let ones = with(&TEN, &[(16, 1)]);
    let read = Job::read(&ones).unwrap();
    assert_eq!((read.version(), read.is_single(), read.placements()), (Version::One, true, 2));
    assert_eq!(read.write(), EXAMPLE);
    assert_eq!(read.write_in(Version::Two), ones);
    let read = Job::read(&TEN).unwrap();
    assert_eq!((read.version(), read.is_single(), read.placements()), (Version::Two, false, 11));
    // Version 1 has no place for the 10.
    assert_eq!(read.write_in(Version::One), EXAMPLE);
    assert_eq!(Job::read(b"TIP\x00\x02\x03\x00\x00").unwrap().write(), *b"TIP\x00\x01\x03\x00\x00");
}

#[test]
fn heads_are_refused() {
    for file in [&EXAMPLE[..], &TEN] {
        for length in 0..8 {
            assert_eq!(refused(&file[..length]), (refusal::SHORT_FILE, 0));
        }
        for place in 0..3 {
            for byte in (0..=255).filter(|&byte| byte != file[place]) {
                assert_eq!(refused(&with(file, &[(place, byte)])), (refusal::WRONG_MARK, 0));
            }
        }
        for version in (0..=u16::MAX).filter(|version| !(1..=2).contains(version)) {
            let [high, low] = version.to_be_bytes();
            assert_eq!(refused(&with(file, &[(3, high), (4, low)])), (refusal::WRONG_VERSION, 0));
        }
        for rack in [0].into_iter().chain(65..=255) {
            assert_eq!(refused(&with(file, &[(5, rack)])), (refusal::RACK_SIZE, 0));
        }
        for count in [513, 514, 1024, 32_768, u16::MAX] {
            let [high, low] = count.to_be_bytes();
            assert_eq!(refused(&with(file, &[(6, high), (7, low)])), (refusal::FILE_LINES, 0));
        }
        for count in [0, 1, 3, 255] {
            assert_eq!(refused(&with(file, &[(7, count)])), (refusal::FILE_LENGTH, 0));
        }
        for length in 8..file.len() {
            assert_eq!(refused(&file[..length]), (refusal::FILE_LENGTH, 0));
        }
        assert_eq!(refused(&[file, &[1]].concat()), (refusal::FILE_LENGTH, 0));
    }
    // Each version has its own length.
    assert_eq!(refused(&with(&EXAMPLE, &[(4, 2)])), (refusal::FILE_LENGTH, 0));
    assert_eq!(refused(&with(&TEN, &[(4, 1)])), (refusal::FILE_LENGTH, 0));
    // A file that says 513 lines gives 9, whether they are there or not.
    assert_eq!(refused(&job(1, &[(1, 1); 513]).write()), (refusal::FILE_LINES, 0));
}

#[test]
fn lines_are_refused() {
    // Without a tip, with a tip outside the rack, and with quantity 0: on each of the two lines.
    assert_eq!(refused(&with(&EXAMPLE, &[(15, 0)])), (refusal::EMPTY_LINE, 0));
    assert_eq!(refused(&with(&EXAMPLE, &[(23, 0)])), (refusal::EMPTY_LINE, 1));
    assert_eq!(refused(&with(&EXAMPLE, &[(15, 0b1001)])), (refusal::TIP_OUTSIDE, 0));
    assert_eq!(refused(&with(&EXAMPLE, &[(16, 0x80)])), (refusal::TIP_OUTSIDE, 1));
    assert_eq!(refused(&with(&TEN, &[(15, 0)])), (refusal::EMPTY_LINE, 0));
    assert_eq!(refused(&with(&TEN, &[(24, 0b1000)])), (refusal::TIP_OUTSIDE, 1));
    assert_eq!(refused(&with(&TEN, &[(16, 0)])), (refusal::ZERO_QUANTITY, 0));
    assert_eq!(refused(&with(&TEN, &[(25, 0)])), (refusal::ZERO_QUANTITY, 1));
    // The last of 512 lines.
    for (last, number) in [((0, 1), 2), ((0b1000, 1), 3), ((0b001, 0), 15)] {
        let lines = [[(0b001, 1); 511].as_slice(), &[last]].concat();
        assert_eq!(refused(&job(3, &lines).write()), (number, 511));
    }
}

#[test]
fn every_rack_has_its_own_tips() {
    for rack in 1..=64 {
        let highest = 1 << (rack - 1);
        for set in [highest, u64::MAX >> (64 - rack), 1] {
            assert!(Job::read(&job(rack, &[(set, 1)]).write()).is_ok());
        }
        for tip in rack..64 {
            assert_eq!(refused(&job(rack, &[(1 << tip, 1)]).write()), (refusal::TIP_OUTSIDE, 0));
            assert_eq!(
                refused(&job(rack, &[(highest, 1), (highest | 1 << tip, 1)]).write()),
                (refusal::TIP_OUTSIDE, 1)
            );
        }
    }
}

#[test]
fn too_many_placements_are_refused_at_the_line_that_passes() {
    // B24 and B30 of the rules: eight lines of 255 are 2,040 placements.
    let eight = [(0b010, 255); 8];
    let file = |more: &[(u64, u8)]| job(3, &[&eight, more].concat()).write();
    assert_eq!(Job::read(&file(&[(0b010, 8)])).unwrap().placements(), MOST_PLACEMENTS);
    assert_eq!(refused(&file(&[(0b010, 8), (0b100, 1)])), (refusal::TOO_MANY_PLACEMENTS, 9));
    assert_eq!(refused(&file(&[(0b010, 9)])), (refusal::TOO_MANY_PLACEMENTS, 8));
    assert_eq!(refused(&file(&[(0b010, 9), (0b001, 255), (0b001, 1)])), (refusal::TOO_MANY_PLACEMENTS, 8));
    // A line that is bad by itself comes first, also behind the one that passes.
    assert_eq!(refused(&file(&[(0b010, 9), (0b100, 0)])), (refusal::ZERO_QUANTITY, 9));
    assert_eq!(refused(&file(&[(0b010, 9), (0, 1)])), (refusal::EMPTY_LINE, 9));
    assert_eq!(refused(&file(&[(0b010, 9), (0b001, 1), (0b1001, 1)])), (refusal::TIP_OUTSIDE, 10));
}

#[test]
fn refusals_have_their_order() {
    // Everything is wrong; one after the other is put right.
    let mut file = *b"tip\x00\x00\x00\x02\x01\x00\x00\x00\x00\x00\x00\x00\x00\x00\x00\x00\x00\x00\x00\x00\x00\x08\x00";
    assert_eq!(refused(&file[..7]), (refusal::SHORT_FILE, 0));
    assert_eq!(refused(&file), (refusal::WRONG_MARK, 0));
    file[..3].copy_from_slice(&MARK);
    assert_eq!(refused(&file), (refusal::WRONG_VERSION, 0));
    file[4] = 2;
    assert_eq!(refused(&file), (refusal::RACK_SIZE, 0));
    file[5] = 3;
    assert_eq!(refused(&file), (refusal::FILE_LINES, 0));
    file[6] = 0;
    assert_eq!(refused(&file), (refusal::FILE_LENGTH, 0));
    file[7] = 2;
    // Line 0 is empty and has quantity 0, and line 1 has tip 3 and quantity 0.
    assert_eq!(refused(&file), (refusal::EMPTY_LINE, 0));
    file[15] = 1;
    assert_eq!(refused(&file), (refusal::ZERO_QUANTITY, 0));
    file[16] = 1;
    assert_eq!(refused(&file), (refusal::TIP_OUTSIDE, 1));
    file[24] = 4;
    assert_eq!(refused(&file), (refusal::ZERO_QUANTITY, 1));
    file[25] = 1;
    assert_eq!(Job::read(&file), Ok(job(3, &[(0b001, 1), (0b100, 1)])));
}

#[test]
fn longest_files_are_read() {
    for (version, quantity, length) in [(Version::One, 1, 4104), (Version::Two, 4, 4616)] {
        let whole = job(64, &[(u64::MAX, quantity); 512]);
        let file = whole.write();
        assert_eq!((whole.version(), file.len(), version.length_of(MOST_LINES)), (version, length, length));
        assert_eq!(Job::read(&file), Ok(whole));
        assert_eq!(refused(&[&file[..], &[4]].concat()), (refusal::FILE_LENGTH, 0));
        assert_eq!(refused(&file[..length - 1]), (refusal::FILE_LENGTH, 0));
    }
    assert_eq!(LONGEST_FILE, 4616);
    // One placement more, in any line: the last line passes.
    for line in [0, 300, 511] {
        let mut lines = [(1, 4); 512];
        lines[line].1 = 5;
        assert_eq!(refused(&job(1, &lines).write()), (refusal::TOO_MANY_PLACEMENTS, 511));
    }
}

#[test]
fn what_is_written_is_read_back() {
    let mut random = Random(7);
    for round in 0..2000 {
        let rack = 1 + round % MOST_TIPS;
        let count = random.below(if round % 100 == 0 { 513 } else { 9 });
        let most = if count > 8 { 4 } else { 255 };
        let lines = (0..count).map(|_| {
            let set = random.below(u64::MAX) >> (MOST_TIPS - rack);
            let quantity = if round % 3 == 0 { 1 } else { 1 + random.below(most) as u8 };
            Line { set: set.max(1), quantity }
        });
        let job = Job { rack, lines: lines.collect() };
        let file = job.write();
        assert_eq!(Job::read(&file), Ok(job.clone()));
        assert_eq!((file.len(), file[4] == 1), (job.version().length_of(job.lines.len()), job.is_single()));
        assert_eq!(Job::read(&job.write_in(Version::Two)), Ok(job));
    }
}

#[test]
fn jobs_that_break_a_rule_make_files_that_are_refused() {
    for rack in [0, 65, 255, 256, 257, 1 << 16, usize::MAX] {
        assert_eq!(refused(&job(rack, &[]).write()), (refusal::RACK_SIZE, 0));
    }
    // The number of lines has 16 bits.
    for count in [513, 65_535, 65_536, 65_537, 66_000] {
        assert_eq!(refused(&job(3, &vec![(1, 1); count]).write()), (refusal::FILE_LINES, 0));
    }
    assert_eq!(refused(&job(3, &[(1, 0)]).write()), (refusal::ZERO_QUANTITY, 0));
    assert_eq!(refused(&job(3, &[(1, 255); 9]).write()), (refusal::TOO_MANY_PLACEMENTS, 8));
}

#[test]
fn heads_and_places_are_as_in_the_rules() {
    assert_eq!((HEAD, AT_VERSION, AT_RACK, AT_COUNT), (8, 3..5, 5, 6..8));
    assert_eq!((MOST_TIPS, MOST_LINES, MOST_PLACEMENTS), (64, 512, 2048));
    assert!(has_mark(&EXAMPLE) && has_mark(b"TIP") && !has_mark(b"TI") && !has_mark(b"rack 3\n"));
    assert_eq!(Head::of(&EXAMPLE), Some(Head { version: 1, rack: 3, count: 2 }));
    assert_eq!(Head::of(b"12\xFF\x03\x04\x05\x06\x07\x08"), Some(Head { version: 0x0304, rack: 5, count: 0x0607 }));
    assert_eq!(Head::of(&EXAMPLE[..7]), None);
    let forms = [0, 1, 2, 3, 0x0102, 0x0200].map(|version| Head { version, rack: 0, count: 0 }.form());
    assert_eq!(forms, [1, 1, 2, 1, 1, 1].map(|number| Version::of_number(number).unwrap()));
    assert_eq!([0, 3, 257, 258, 512].map(Version::of_number), [None; 5]);
    assert_eq!([Version::One, Version::Two].map(Version::number), [1, 2]);
    // Line 2 of 8 bytes begins behind 8 + 16 bytes, and of 9 bytes behind 8 + 18.
    let (one, two) = (Version::One, Version::Two);
    assert_eq!((one.line(), one.length_of(2), one.at_set(2), one.at_quantity(2)), (8, 24, 24..32, None));
    assert_eq!((two.line(), two.length_of(2), two.at_set(2), two.at_quantity(2)), (9, 26, 26..34, Some(34)));
}

#[test]
fn lines_of_bad_files_are_found() {
    assert_eq!(Version::One.line_in(&EXAMPLE, 1), Line { set: 0b110, quantity: 1 });
    assert_eq!(Version::Two.line_in(&TEN, 0), Line { set: 0b001, quantity: 10 });
    // A file that is cut behind its second line, of an empty set and quantity 0.
    let file = with(&TEN, &[(7, 9), (24, 0), (25, 0)]);
    assert_eq!(Version::Two.line_in(&file, 1), Line { set: 0, quantity: 0 });
}
