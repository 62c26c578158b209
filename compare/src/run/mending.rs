//! Damaged files mended: fixed ones, and seeded ones with several kinds of damage.

use job_file::{Head, Job, Version, AT_COUNT, AT_RACK, HEAD};
use second::interface::ANSWER_PLACES;
use second::{mended, Line, Mended, What};

use super::Run;
use crate::check::{Call, Difference};
use crate::damage::{damage, damaged, put_count, KINDS};
use crate::files::put_line;
use crate::random::Random;
use crate::refusal;
use crate::tally::Event;

/// A file with this count and these lines, each a set and a quantity, whether they keep the rules or not.
fn file_of(version: Version, rack: usize, count: usize, lines: &[(u64, u8)]) -> Vec<u8> {
    let lines = lines.iter().map(|&(set, quantity)| job_file::Line { set, quantity });
    let mut file = Job { rack, lines: lines.collect() }.write_in(version);
    put_count(&mut file, count);
    file
}

/// Files that are always mended: those of the rules, and the ends of each range; the shortest first.
fn fixed_files() -> Vec<Vec<u8>> {
    let first = |rack: usize, count: usize, sets: &[u64]| {
        let lines: Vec<(u64, u8)> = sets.iter().map(|&set| (set, 1)).collect();
        file_of(Version::One, rack, count, &lines)
    };
    let second = |rack: usize, count: usize, lines: &[(u64, u8)]| file_of(Version::Two, rack, count, lines);
    let eight = [(1, 255); 8];
    let with = |count: usize, lines: &[(u64, u8)]| second(3, count, &[&eight[..], lines].concat());
    vec![
        first(3, 2, &[1, 6]),
        second(3, 2, &[(1, 1), (6, 1)]),
        // Another count than the lines held, and none read at all.
        first(3, 3, &[1, 6]),
        first(3, 1, &[1, 6]),
        second(3, 513, &[(1, 1), (6, 1)]),
        first(3, 2, &[]),
        first(3, 0, &[1]),
        // Tips outside, empty lines and quantities of 0.
        first(3, 2, &[0b1000, 0b011]),
        second(3, 1, &[(2, 0)]),
        second(3, 2, &[(0, 0), (2, 2)]),
        second(3, 4, &[(8, 0), (2, 0), (2 | 1 << 63, 3), (0, 1)]),
        first(64, 2, &[1 << 63, 0]),
        // Too many placements.
        with(11, &[(2, 9), (0, 0), (2, 1)]),
        with(11, &[(2, 8), (0, 0), (2, 1)]),
        with(12, &[(2, 8), (0b1010, 0), (8, 1), (4, 1)]),
        with(12, &[(2, 7), (4, 0), (4, 255), (4, 1)]),
        with(10, &[(0, 255), (2, 8)]),
        // More than 512 lines, of which a part is changed, and as many changes as there can be.
        first(1, 513, &[1; 513]),
        first(1, 512, &[1; 514]),
        second(2, 600, &[(5, 0); 520]),
        second(3, 512, &[[(1, 4); 511], [(9, 0); 511]].concat()),
    ]
}

/// The example with these bytes in the place of others: heads that are refused, and the order of their refusals.
fn refused_heads() -> Vec<Vec<u8>> {
    let changes: [&[(usize, u8)]; 9] = [
        &[(0, b't')],
        &[(2, b'Q'), (4, 3)],
        &[(4, 0)],
        &[(4, 3), (AT_RACK, 0)],
        &[(3, 1)],
        &[(3, 2), (4, 0)],
        &[(AT_RACK, 0)],
        &[(AT_RACK, 65), (6, 255)],
        &[(AT_RACK, 255)],
    ];
    let with = |changes: &&[(usize, u8)]| {
        let mut file = file_of(Version::One, 3, 2, &[(1, 1), (6, 1)]);
        changes.iter().for_each(|&(place, byte)| file[place] = byte);
        file
    };
    changes.iter().map(with).collect()
}

impl Run {
    /// Each fixed file with outputs around the needed lengths and with longer ones, and the first two cut at every byte.
    pub(super) fn fixed_mendings(&mut self) -> Result<(), Difference> {
        for (number, file) in fixed_files().iter().enumerate() {
            self.each_mending(file)?;
            if number < 2 {
                let [out, report] = needed(file);
                for answer in 0..=5 {
                    self.mend(file, [out, report, answer])?;
                }
                for length in 0..file.len() {
                    let [out, report] = needed(&file[..length]);
                    self.mend(&file[..length], [out, report + 3, ANSWER_PLACES])?;
                }
                self.mend(&[&file[..], &[0]].concat(), [out, report + 3, ANSWER_PLACES])?;
            }
        }
        refused_heads().iter().try_for_each(|file| self.each_mending(file))
    }

    /// Any file with outputs of the needed lengths, longer ones, and with one byte less for the file or the report.
    pub(super) fn each_mending(&mut self, file: &[u8]) -> Result<(), Difference> {
        let [out, report] = needed(file);
        self.mend(file, [out, report, ANSWER_PLACES])?;
        self.mend(file, [out + 50, report + 50, ANSWER_PLACES])?;
        if out > 0 {
            self.mend(file, [out - 1, report, ANSWER_PLACES])?;
        }
        if report > 0 {
            self.mend(file, [out, report - 1, ANSWER_PLACES])?;
            self.mend(file, [out - 1, report - 1, ANSWER_PLACES])?;
        }
        Ok(())
    }

    /// The file as it is, damaged, and damaged in ways that mending is for; what is mended once is mended again.
    pub(super) fn seeded_mendings(&mut self, file: &[u8]) -> Result<(), Difference> {
        let (mut copy, mut odd) = (damaged(&mut self.random, file), file.to_vec());
        if self.random.once_in(8) {
            copy = file.to_vec();
        }
        for _ in 0..self.random.from_to(1, 4) {
            damage_lines(&mut self.random, &mut odd);
        }
        for file in [copy, odd] {
            let [out, report] = needed(&file);
            let lengths = [self.length_around(out), self.length_around(report), self.answer_length()];
            self.mend(&file, lengths)?;
            self.mend(&file, [out, report, ANSWER_PLACES])?;
            if let (Ok(Mended { file, .. }), true) = (mended(&file), self.random.once_in(4)) {
                self.mend(&file, [file.len(), 0, ANSWER_PLACES])?;
                self.case(&file, Call::Read { answer: ANSWER_PLACES })?;
            }
        }
        Ok(())
    }

    /// Mends with these lengths of output, report and answer.
    fn mend(&mut self, file: &[u8], [out, report, answer]: [usize; 3]) -> Result<(), Difference> {
        self.begin_file(file);
        let outcome = self.case(file, Call::Mend { out, report, answer })?;
        match mended(file) {
            Ok(mended) if outcome.returned == refusal::ACCEPTED => self.count_mending(file, &mended),
            Ok(mended) if outcome.returned == refusal::SHORT_OUTPUT => self.count_events(&[
                (out >= mended.file.len(), Event::ShortReportAlone),
                (report >= mended.report().len(), Event::ShortFileAlone),
            ]),
            _ => {}
        }
        Ok(())
    }

    fn count_mending(&mut self, file: &[u8], mended: &Mended) {
        let has = |what: What| mended.changes.iter().any(|change| change.what == what);
        let of_line = |line: u16| mended.changes.iter().filter(move |change| change.line == line).count();
        let number = |what: What| mended.changes.iter().filter(|change| change.what == what).count();
        let of_both = |one: What, other: What| {
            let pairs = mended.changes.windows(2).any(|pair| {
                pair[0].line == pair[1].line && pair[0].what == one && pair[1].what == other && pair[0].line < u16::MAX
            });
            pairs
        };
        let head = Head::of(file).expect("a file that is mended has a head");
        let (in_second, step) = (head.form() == Version::Two, head.form().line());
        let whole = (file.len() - HEAD) / step;
        let found = head.count;
        let quantities =
            || mended.file[HEAD..].chunks(step).all(|line| line.get(8).is_none_or(|&quantity| quantity == 1));
        let all_of_a_line = (0..512).any(|line| of_line(line) == 3);
        self.count_events(&[
            (mended.changes.is_empty(), Event::NothingMended),
            (has(What::TipsCleared), Event::TipsCleared),
            (has(What::DroppedAsEmpty), Event::DroppedAsEmpty),
            (has(What::QuantityRaised), Event::QuantityRaised),
            (has(What::DroppedForTotal), Event::DroppedForTotal),
            (has(What::CountChanged) && !has(What::BytesBehind), Event::CountChangedAlone),
            (has(What::BytesBehind) && !has(What::CountChanged), Event::BytesBehindAlone),
            (has(What::CountChanged) && has(What::BytesBehind), Event::CountAndBytes),
            (of_both(What::TipsCleared, What::DroppedAsEmpty), Event::ClearedAndDropped),
            (of_both(What::QuantityRaised, What::DroppedForTotal), Event::RaisedAndDropped),
            (all_of_a_line, Event::ThreeOfALine),
            (number(What::DroppedForTotal) > 1, Event::DroppedAfterTotal),
            (in_second && whole > 0 && quantities() && has(What::TipsCleared), Event::MendedOnesInVersion2),
            (!in_second && has(What::TipsCleared), Event::MendedInVersion1),
            (found > 512 && whole > 512, Event::MendedMoreThan512),
            (found > 0 && whole == 0 && file.len() > HEAD, Event::MendedWithoutALine),
            (mended.changes.len() > 256, Event::LongChanges),
            (file[AT_RACK] == 64 && has(What::DroppedAsEmpty), Event::MendedRackOf64),
        ]);
    }
}

/// The lengths that a mending needs, 0 where the head is refused.
fn needed(file: &[u8]) -> [usize; 2] {
    mended(file).map_or([0, 0], |mended| [mended.file.len(), mended.report().len()])
}

/// Damage as memory cards leave it, with a good head: odd sets and quantities, flipped bits, a cut, other counts, and
/// bytes behind.
fn damage_lines(random: &mut Random, file: &mut Vec<u8>) {
    let version = if file[4] == 2 { Version::Two } else { Version::One };
    let (rack, lines) = (usize::from(file[AT_RACK]), (file.len() - HEAD) / version.line());
    match random.below(8) {
        0 | 1 => {
            for _ in 0..random.from_to(1, 4) {
                let place = random.below(file.len() - AT_COUNT.start) + AT_COUNT.start;
                file[place] ^= 1 << random.below(8);
            }
        }
        // Odd lines, one or several in a row.
        2..=4 if lines > 0 => {
            let line = random.below(lines);
            let zero = random.once_in(2);
            let outside = if rack < 64 { u64::MAX << rack } else { 0 };
            for line in line..(line + random.from_to(1, 3)).min(lines) {
                let set = random.one_of(&[0, outside, outside | 1, 1]);
                put_line(version, file, line, Line { set, quantity: if zero { 0 } else { 255 } });
            }
        }
        // So many placements that some line passes.
        5 if lines > 8 => {
            let from = random.below(lines);
            for line in (from..lines).filter(|line| line % 3 > 0 || from < lines / 2) {
                let set = random.one_of(&[1, 1, 1, 0, 1 << 63, 1 << 63 | 1]);
                put_line(version, file, line, Line { set, quantity: random.one_of(&[255, 255, 254, 0]) });
            }
        }
        6 => {
            let kind = random.one_of(&[1, 2, 6, 7, 8, 15]);
            damage(random, file, kind);
        }
        _ => {
            let kind = random.below(KINDS);
            let head = file[..AT_COUNT.start].to_vec();
            damage(random, file, kind);
            if file.len() >= HEAD {
                file[..AT_COUNT.start].copy_from_slice(&head);
            }
        }
    }
    file.resize(file.len().max(HEAD), 0);
}
