//! Reading and writing job files.

use std::ops::Range;

use crate::board::{first_to_pass, refusal_of_line, Answer, Board, Line, Stage, MOST_LINES, MOST_TIPS};
use crate::refusal;

/// The bytes before the lines: mark, version, rack size and number of lines.
pub(crate) const HEAD: usize = 8;
/// The bytes of one set.
pub(crate) const SET: usize = 8;
/// What every job file begins with.
pub(crate) const MARK: [u8; 3] = *b"TIP";

/// Where the version stands.
pub(crate) const AT_VERSION: Range<usize> = 3..5;
/// Where the rack size stands.
pub(crate) const AT_RACK: usize = 5;
/// Where the number of lines stands.
pub(crate) const AT_COUNT: Range<usize> = 6..8;

/// The two versions of a job file.
#[derive(Clone, Copy, PartialEq, Eq, Debug)]
pub enum Version {
    /// Each line is its set; every quantity is 1.
    One,
    /// Each line is its set and one byte, its quantity.
    Two,
}

impl Version {
    /// The version of this number, where there is one.
    pub fn of_number(number: u16) -> Option<Version> {
        match number {
            1 => Some(Version::One),
            2 => Some(Version::Two),
            _ => None,
        }
    }

    pub fn number(self) -> u16 {
        match self {
            Version::One => 1,
            Version::Two => 2,
        }
    }

    /// The bytes of one line.
    pub fn line(self) -> usize {
        match self {
            Version::One => SET,
            Version::Two => SET + 1,
        }
    }

    /// The length of a file with this many lines.
    pub fn length_of(self, count: usize) -> usize {
        HEAD + self.line() * count
    }
}

/// The length of the longest good file.
pub const LONGEST_FILE: usize = HEAD + (SET + 1) * MOST_LINES;

fn refused(number: u32, place: usize) -> Answer<()> {
    Answer::refused_at(Board::without_lines(1), number, place)
}

/// Reads a job file into a closed board.
pub fn read(file: &[u8]) -> Answer<()> {
    if file.len() < HEAD {
        return refused(refusal::SHORT_FILE, 0);
    }
    if !file.starts_with(&MARK) {
        return refused(refusal::WRONG_MARK, 0);
    }
    let Some(version) = Version::of_number(number_in(&file[AT_VERSION]) as u16) else {
        return refused(refusal::WRONG_VERSION, 0);
    };
    let rack = usize::from(file[AT_RACK]);
    if rack == 0 || rack > MOST_TIPS {
        return refused(refusal::RACK_SIZE, 0);
    }
    let count = number_in(&file[AT_COUNT]) as usize;
    if count > MOST_LINES {
        return refused(refusal::FILE_LINES, 0);
    }
    if file.len() != version.length_of(count) {
        return refused(refusal::FILE_LENGTH, 0);
    }
    let mut board = Board { stage: Stage::Closed, count, ..Board::without_lines(rack) };
    for (place, bytes) in file[HEAD..].chunks(version.line()).enumerate() {
        let (set, quantity) = bytes.split_at(SET);
        let line = Line { set: number_in(set), quantity: quantity.first().copied().unwrap_or(1) };
        let number = refusal_of_line(line, rack);
        if number != refusal::ACCEPTED {
            return refused(number, place);
        }
        board.sets[place] = line.set;
        board.quantities[place] = line.quantity;
    }
    if let Some(line) = first_to_pass(&board.quantities[..count]) {
        return refused(refusal::TOO_MANY_PLACEMENTS, line);
    }
    Answer::accepted(board, ())
}

/// The number of these bytes, the highest first.
pub(crate) fn number_in(bytes: &[u8]) -> u64 {
    let mut number = 0;
    for &byte in bytes {
        number = number << 8 | u64::from(byte);
    }
    number
}

impl Board {
    /// The version that a sound board is written in: the shorter one where it can be.
    pub fn version(&self) -> Version {
        if self.lines().all(|line| line.quantity == 1) {
            Version::One
        } else {
            Version::Two
        }
    }

    /// The job file of a sound closed board.
    pub fn file(&self) -> Vec<u8> {
        let mut file = vec![0; self.version().length_of(self.count)];
        let written = self.clone().write(&mut file);
        assert_eq!(written.number, refusal::ACCEPTED, "only a sound closed board has a job file");
        file
    }

    /// The job file of a sound board in this version, which is not the first where a quantity is not 1.
    pub fn file_in(&self, version: Version) -> Vec<u8> {
        let mut file = Vec::with_capacity(version.length_of(self.count));
        file.extend(MARK);
        file.extend(version.number().to_be_bytes());
        file.push(self.rack as u8);
        file.extend((self.count as u16).to_be_bytes());
        for line in self.lines() {
            file.extend(line.set.to_be_bytes());
            match version {
                Version::One => assert_eq!(line.quantity, 1, "version 1 has no quantities"),
                Version::Two => file.push(line.quantity),
            }
        }
        file
    }

    /// Writes the board as a job file; the answer is the number of bytes.
    pub fn write(self, out: &mut [u8]) -> Answer<usize> {
        let (number, place) = self.refusal_in(Stage::Closed);
        if number != refusal::ACCEPTED {
            return Answer::refused_at(self, number, place);
        }
        let file = self.file_in(self.version());
        if out.len() < file.len() {
            return Answer::refused(self, refusal::SHORT_OUTPUT);
        }
        out[..file.len()].copy_from_slice(&file);
        Answer::accepted(self, file.len())
    }
}
