//! Job files with something wrong in them.

use job_file::{Head, Version, AT_COUNT, AT_RACK, AT_VERSION, HEAD, LONGEST_FILE, MOST_PLACEMENTS};

use crate::random::Random;

/// The kinds of damage.
pub const KINDS: usize = 24;
/// Those with too many placements, which need 9 lines at least.
pub const TOO_MANY_PLACEMENTS: [usize; 2] = [19, 20];

/// The version that a file names, the first where it names none.
fn version_of(file: &[u8]) -> Version {
    Head::of(file).map_or(Version::One, |head| head.form())
}

/// The number of whole lines in a file.
fn lines_in(file: &[u8]) -> usize {
    (file.len() - HEAD) / version_of(file).line()
}

fn put_version(file: &mut [u8], version: u16) {
    file[AT_VERSION].copy_from_slice(&version.to_be_bytes());
}

pub(crate) fn put_count(file: &mut [u8], count: usize) {
    file[AT_COUNT].copy_from_slice(&(count as u16).to_be_bytes());
}

fn put_set(file: &mut [u8], line: usize, set: u64) {
    let at = version_of(file).at_set(line);
    file[at].copy_from_slice(&set.to_be_bytes());
}

/// The quantity of a line, in a file that has quantities.
fn quantity(file: &mut [u8], line: usize) -> Option<&mut u8> {
    version_of(file).at_quantity(line).map(|at| &mut file[at])
}

fn put_quantity(file: &mut [u8], line: usize, to: u8) {
    if let Some(quantity) = quantity(file, line) {
        *quantity = to;
    }
}

/// The quantities of the whole lines of a file that has quantities, good or not.
pub fn quantities_in(file: &[u8]) -> Vec<u8> {
    if file.len() < HEAD || version_of(file) == Version::One {
        return Vec::new();
    }
    (0..lines_in(file)).map(|line| file[Version::Two.at_quantity(line).expect("a quantity")]).collect()
}

/// The first line with which there are more placements than there may be.
pub fn first_to_pass(quantities: &[u8]) -> Option<usize> {
    let totals = quantities.iter().scan(0, |total, &quantity| {
        *total += usize::from(quantity);
        Some(*total)
    });
    totals.enumerate().find(|&(_, total)| total > MOST_PLACEMENTS).map(|(line, _)| line)
}

/// Raises quantities, from a seeded line on, until there are so many placements together, where the lines can have them.
fn raise_to(random: &mut Random, file: &mut [u8], placements: usize) {
    let lines = lines_in(file);
    let total: usize = quantities_in(file).into_iter().map(usize::from).sum();
    let mut missing = placements.saturating_sub(total);
    let first = random.below(lines.max(1));
    for turn in 0..lines {
        if let Some(quantity) = quantity(file, (first + turn) % lines) {
            let more = missing.min(usize::from(255 - *quantity));
            *quantity += more as u8;
            missing -= more;
        }
    }
}

/// Damages one file in the given way, where it can be; a seeded choice settles the details.
pub fn damage(random: &mut Random, file: &mut Vec<u8>, kind: usize) {
    if file.len() < HEAD {
        return;
    }
    let lines = lines_in(file);
    let rack = usize::from(file[AT_RACK]);
    match kind {
        // Cut within the head, and anywhere.
        0 => file.truncate(random.below(HEAD)),
        1 => file.truncate(random.from_to(HEAD, file.len())),
        // Bytes after the end, up to a whole line and more.
        2 => {
            for _ in 0..random.from_to(1, 17) {
                file.push(random.number() as u8);
            }
        }
        3 => {
            let place = random.below(3);
            file[place] = random.number() as u8;
        }
        4 => put_version(file, random.one_of(&[0, 3, 0x0100, 0x0101, 0x0102, 0x0200, 0x8001, 0xFFFF])),
        5 => file[AT_RACK] = random.one_of(&[0, 65, 66, 128, 255]),
        6 => {
            let any = random.from_to(513, 65_535);
            put_count(file, random.one_of(&[513, 514, 1024, 0x8000, 65_535, any]));
        }
        7 => put_count(file, random.from_to(0, 512)),
        8 => put_count(file, (lines + random.one_of(&[0, 2])).saturating_sub(1)),
        // A line without tips.
        9 if lines > 0 => put_set(file, random.below(lines), 0),
        // A line with a tip outside the rack.
        10 if lines > 0 && rack < 64 => put_set(file, random.below(lines), outside(random, rack)),
        // Two bad lines of different kinds, in either order.
        11 if lines > 1 && rack < 64 => {
            let empty = random.below(lines);
            put_set(file, empty, 0);
            put_set(file, another(random, empty, lines), 1 << rack);
        }
        // A smaller rack than the lines were made for.
        12 => file[AT_RACK] = random.from_to(1, rack.clamp(1, 64)) as u8,
        // One changed bit.
        13 => {
            let place = random.below(file.len());
            file[place] ^= 1 << random.below(8);
        }
        // Nothing but seeded bytes.
        14 => {
            for byte in file.iter_mut() {
                *byte = random.number() as u8;
            }
        }
        // Longer than any good file.
        15 => {
            let any = random.from_to(LONGEST_FILE + 1, 9000);
            file.resize(random.one_of(&[LONGEST_FILE + 1, LONGEST_FILE + 2, LONGEST_FILE + 8, any]), 1);
        }
        // A line of quantity 0.
        16 if lines > 0 => put_quantity(file, random.below(lines), 0),
        // A line of quantity 0 whose set is bad too.
        17 if lines > 0 => {
            let line = random.below(lines);
            put_quantity(file, line, 0);
            let set = if rack < 64 && random.once_in(2) { outside(random, rack) } else { 0 };
            put_set(file, line, set);
        }
        // A line of quantity 0 and another with a bad set, in either order.
        18 if lines > 1 => {
            let zero = random.below(lines);
            put_quantity(file, zero, 0);
            let set = if rack < 64 && random.once_in(2) { outside(random, rack) } else { 0 };
            put_set(file, another(random, zero, lines), set);
        }
        // As many placements as there may be, one more, or many more.
        19 => {
            let any = random.from_to(MOST_PLACEMENTS, 4 * MOST_PLACEMENTS);
            let placements = random.one_of(&[MOST_PLACEMENTS, MOST_PLACEMENTS + 1, MOST_PLACEMENTS + 1, any]);
            raise_to(random, file, placements);
        }
        // Too many placements, and a bad line.
        20 if lines > 0 => {
            raise_to(random, file, 3 * MOST_PLACEMENTS);
            let any = random.below(lines);
            let line = random.one_of(&[any, lines - 1]);
            match random.below(3) {
                0 => put_set(file, line, 0),
                1 if rack < 64 => put_set(file, line, outside(random, rack)),
                _ => put_quantity(file, line, 0),
            }
        }
        // Cut before a quantity or behind it.
        21 if lines > 0 => {
            let end = version_of(file).at_set(random.below(lines)).end;
            file.truncate(end + random.below(2).min(file.len() - end));
        }
        // The other version, with nothing else changed.
        22 => {
            let version = other(version_of(file));
            put_version(file, version.number());
        }
        // The other version, with as many lines as the bytes make in it.
        23 => {
            let version = other(version_of(file));
            let count = ((file.len() - HEAD) / version.line()).min(512);
            put_version(file, version.number());
            put_count(file, count);
            file.truncate(version.length_of(count));
        }
        _ => {}
    }
}

fn other(version: Version) -> Version {
    match version {
        Version::One => Version::Two,
        Version::Two => Version::One,
    }
}

/// A line other than this one of two or more.
fn another(random: &mut Random, line: usize, lines: usize) -> usize {
    (line + random.from_to(1, lines - 1)) % lines
}

/// A set with a tip outside a rack that is not full: the next one, the last, or one half-way to it.
fn outside(random: &mut Random, rack: usize) -> u64 {
    1 << random.one_of(&[rack, 63, (rack + 63) / 2]) | 1
}

/// A damaged copy of a file, sometimes damaged more than once.
pub fn damaged(random: &mut Random, file: &[u8]) -> Vec<u8> {
    let mut copy = file.to_vec();
    for _ in 0..random.one_of(&[1, 1, 1, 2, 3]) {
        let kind = random.below(KINDS);
        damage(random, &mut copy, kind);
    }
    copy
}

#[cfg(test)]
mod tests {
    use std::collections::BTreeSet;

    use job_file::{Job, Refusal};
    use second::{refusal, Board};

    use super::*;
    use crate::files::{file_in, number_of};
    use crate::tally::OF_READING;

    #[test]
    fn every_refusal_of_reading_is_reached() {
        // Nine lines can be too many placements.
        let board = Board::of_sets(3, &[1, 2, 3, 7, 1, 2, 3, 7, 1]);
        let mut seen = [(); 2].map(|()| BTreeSet::new());
        let mut random = Random::new(7);
        for (seen, version) in seen.iter_mut().zip([Version::One, Version::Two]) {
            for _ in 0..2000 {
                seen.insert(number_of(&damaged(&mut random, &file_in(&board, version))));
            }
        }
        let [first, second] = seen.map(Vec::from_iter);
        assert_eq!(first[..9], [&[refusal::ACCEPTED], &OF_READING[..8]].concat());
        assert_eq!(second, [&[refusal::ACCEPTED], &OF_READING[..]].concat());
    }

    #[test]
    fn quantities_are_raised_to_any_number_of_placements() {
        let board = Board::of_sets(3, &[1; 40]);
        for placements in [41, 1000, MOST_PLACEMENTS, MOST_PLACEMENTS + 1, 40 * 255] {
            let mut file = file_in(&board, Version::Two);
            raise_to(&mut Random::new(3), &mut file, placements);
            let quantities = quantities_in(&file);
            assert_eq!(quantities.iter().map(|&quantity| usize::from(quantity)).sum::<usize>(), placements);
            let passed = first_to_pass(&quantities);
            assert_eq!(passed.is_some(), placements > MOST_PLACEMENTS);
            assert_eq!(
                Job::read(&file).err(),
                passed.map(|line| Refusal { number: refusal::TOO_MANY_PLACEMENTS, line })
            );
        }
    }
}
