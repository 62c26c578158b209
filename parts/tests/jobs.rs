//! Job files: made from lists and back, and refused by the numbers of the proved library.

use job_file::Refusal;
use parts::job::{job_of, list_in_words, Job, Line};
use parts::list::List;

/// The example of the rules: rack 3, lines {0} and {1,2}.
const EXAMPLE: [u8; 24] = *b"TIP\x00\x01\x03\x00\x02\x00\x00\x00\x00\x00\x00\x00\x01\x00\x00\x00\x00\x00\x00\x00\x06";

/// The same lines, ten of the first: version 2.
const TEN: [u8; 26] =
    *b"TIP\x00\x02\x03\x00\x02\x00\x00\x00\x00\x00\x00\x00\x01\x0A\x00\x00\x00\x00\x00\x00\x00\x06\x01";

fn make(text: &str) -> Vec<u8> {
    List::read(text.as_bytes()).unwrap_or_else(|faults| panic!("{text:?}: {faults:?}")).job().write()
}

fn show(file: &[u8]) -> String {
    list_in_words(&Job::read(file).expect("a good file"))
}

/// Seeded numbers, by a linear congruence.
struct Random(u64);

impl Random {
    fn below(&mut self, bound: u64) -> u64 {
        self.0 = self.0.wrapping_mul(6_364_136_223_846_793_005).wrapping_add(1_442_695_040_888_963_407);
        (self.0 >> 33) % bound
    }
}

#[test]
fn example_is_made_and_shown() {
    assert_eq!(make("rack 3\nC1 : 0\nC2 : 1-2\n"), EXAMPLE);
    assert_eq!(show(&EXAMPLE), "rack 3\n0 : 0\n1 : 1-2\n");
}

#[test]
fn quantities_are_made_and_shown() {
    assert_eq!(make("rack 3\nC1 x10 : 0\nC2 : 1-2\n"), TEN);
    assert_eq!(show(&TEN), "rack 3\n0 x10 : 0\n1 : 1-2\n");
    let job = Job::read(&TEN).unwrap();
    assert_eq!(job.lines, [Line { set: 1, quantity: 10 }, Line { set: 6, quantity: 1 }]);
    assert_eq!((job.placements(), job.is_single()), (11, false));
}

#[test]
fn version_2_is_written_only_where_a_quantity_is_not_1() {
    assert_eq!(make("rack 3\nC1 x1 : 0\nC2 x1 : 1-2\n"), EXAMPLE);
    let mut ones = TEN;
    ones[16] = 1;
    let job = Job::read(&ones).unwrap();
    assert_eq!((job.placements(), job.is_single()), (2, true));
    assert_eq!(job.write(), EXAMPLE);
    assert_eq!(Job::read(b"TIP\x00\x02\x03\x00\x00").unwrap().write(), b"TIP\x00\x01\x03\x00\x00");
}

#[test]
fn ends_of_the_format_are_made_and_shown() {
    assert_eq!(make("rack 1\n"), b"TIP\x00\x01\x01\x00\x00");
    assert_eq!(show(b"TIP\x00\x01\x40\x00\x00"), "rack 64\n");
    let longest = make(&("rack 64\n".to_string() + &": 0 63\n".repeat(512)));
    assert_eq!((longest.len(), &longest[..8]), (4104, &b"TIP\x00\x01\x40\x02\x00"[..]));
    assert_eq!(&longest[4096..], b"\x80\x00\x00\x00\x00\x00\x00\x01");
    assert_eq!(show(&longest).lines().last(), Some("511 : 0 63"));
    let longest = make(&("rack 64\n".to_string() + &"x4 : 0 63\n".repeat(512)));
    assert_eq!((longest.len(), &longest[..8]), (4616, &b"TIP\x00\x02\x40\x02\x00"[..]));
    assert_eq!(&longest[4607..], b"\x80\x00\x00\x00\x00\x00\x00\x01\x04");
    assert_eq!(show(&longest).lines().last(), Some("511 x4 : 0 63"));
    assert_eq!(show(&make("rack 1\nx255 : 0\n")), "rack 1\n0 x255 : 0\n");
}

#[test]
fn text_to_job_to_text_to_job_is_stable() {
    let mut random = Random(1);
    for round in 0..500 {
        let rack = 1 + round % 64;
        let mut text = format!("# seeded\nrack {rack}\n");
        for part in 0..random.below(if round % 50 == 0 { 513 } else { 12 }) {
            let tips: Vec<u64> = (0..rack).filter(|_| random.below(3) > 0).collect();
            let mut words: Vec<String> = tips.iter().map(u64::to_string).collect();
            if words.is_empty() {
                words.push((rack - 1).to_string());
            }
            if random.below(2) == 0 {
                words.reverse();
            }
            if random.below(2) == 0 {
                text += &format!("P{part} height=0.{part} ");
            }
            // A list in three is without quantities; 512 parts have room for x4 each.
            if round % 3 > 0 && random.below(2) == 0 {
                text += &format!("x{} ", 1 + random.below(if round % 50 == 0 { 4 } else { 186 }));
            }
            text += &format!(": {} # {part}\n", words.join("  "));
        }
        let file = make(&text);
        let shown = show(&file);
        assert_eq!(make(&shown), file, "{text}");
        assert_eq!(show(&make(&shown)), shown);
        assert_eq!(Job::read(&file).unwrap().write(), file);
    }
}

#[test]
fn damaged_files_are_refused_as_by_the_proved_library() {
    let mut random = Random(2);
    let longest = make(&("rack 64\n".to_string() + &": 0 63\n".repeat(512)));
    let mut numbers = std::collections::BTreeMap::new();
    let mut check = |file: &[u8]| {
        let read = Job::read(file);
        let told = read.clone().map(|job| (job.rack as u64, job.lines.len() as u64));
        let told = told.map_err(|refusal| (refusal.number, refusal.line as u64));
        let expected = library::read(file).map(|job| (job.rack, job.lines));
        assert_eq!(told, expected.map_err(|refusal| (refusal.number, refusal.line)), "{file:?}");
        // A file is written as it was read but for quantities that are all 1.
        let is_short = |job: &Job| file[4] == 1 || !job.is_single();
        assert!(read.as_ref().map_or(true, |job| (job.write() == file) == is_short(job)), "{file:?}");
        *numbers.entry(read.err().map_or(0, |refusal| refusal.number)).or_insert(0) += 1;
    };
    check(&longest);
    check(&[&longest[..], &[0]].concat());
    check(&[b"TIP\x00\x01\x40\x02\x01", &longest[8..], &[1; 8]].concat());
    let longest = make(&("rack 64\n".to_string() + &"x4 : 0 63\n".repeat(512)));
    check(&longest);
    check(&[&longest[..], &[0]].concat());
    check(&longest[..4615]);
    check(&[b"TIP\x00\x02\x40\x02\x01", &longest[8..], &[1; 9]].concat());
    // A placement more, in the first line and in the last: the last line passes.
    for line in [0, 511] {
        let mut file = longest.clone();
        file[8 + 9 * line + 8] += 1;
        check(&file);
        assert_eq!(Job::read(&file).unwrap_err(), Refusal { number: 30, line: 511 });
    }
    for example in [&EXAMPLE[..], &TEN] {
        for length in 0..=example.len() {
            check(&example[..length]);
        }
        for place in 0..example.len() {
            for byte in 0..=255 {
                let mut file = example.to_vec();
                file[place] = byte;
                check(&file);
            }
        }
        for _ in 0..20_000 {
            let mut file = example.to_vec();
            for _ in 0..1 + random.below(3) {
                let place = random.below(file.len() as u64) as usize;
                file[place] = random.below(256) as u8;
            }
            let length = file.len() as u64;
            file.truncate((length - if random.below(4) == 0 { random.below(length) } else { 0 }) as usize);
            check(&file);
        }
    }
    assert_eq!(numbers.into_keys().collect::<Vec<u32>>(), [0, 1, 2, 3, 6, 7, 8, 9, 10, 15, 30]);
}

#[test]
fn every_refusal_says_what_to_do() {
    let with = |place: usize, byte: u8| {
        let mut file = EXAMPLE.to_vec();
        file[place] = byte;
        file
    };
    let mut without_placement = TEN.to_vec();
    without_placement[25] = 0;
    let mut too_many = make(&("rack 3\n".to_string() + &"x255 : 0\n".repeat(8) + "x8 : 0\n"));
    too_many[8 + 9 * 8 + 8] = 12;
    let cases = [
        (with(5, 0), "refused 1: the rack size is 0; put 1 to 64 in byte 5"),
        (with(5, 65), "refused 1: the rack size is 65; put 1 to 64 in byte 5"),
        (with(23, 0), "refused 2: line 1 has no tip; give that line a tip"),
        (with(15, 8), "refused 3: line 0 has a tip outside the rack of 3; take it out, or name a larger rack"),
        (EXAMPLE[..7].to_vec(), "refused 6: the file has 7 bytes and needs 8 at least; hand over the whole file"),
        (
            with(2, b'Q'),
            "refused 7: the file does not begin with TIP; hand over a job file, such as `parts make` writes",
        ),
        (with(4, 3), "refused 8: the version is 3; write the file as version 1 or 2"),
        (with(3, 1), "refused 8: the version is 257; write the file as version 1 or 2"),
        (with(6, 2), "refused 9: the file names 514 lines and 512 is the most; split the parts list"),
        (
            EXAMPLE[..20].to_vec(),
            "refused 10: the file names 2 lines, which take 24 bytes, and has 20; hand over the whole file and no more, \
             or mend it: parts mend",
        ),
        (
            with(4, 2),
            "refused 10: the file names 2 lines with quantities, which take 26 bytes, and has 24; hand over the whole \
             file and no more, or mend it: parts mend",
        ),
        (without_placement, "refused 15: line 1 has quantity 0; write 1 to 255, or take the line out"),
        (too_many, "refused 30: 2052 placements with line 8; 2048 is the most, split the parts list"),
    ];
    for (file, words) in cases {
        assert_eq!(job_of(&file).unwrap_err(), words);
    }
}
