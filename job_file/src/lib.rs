//! Job files: the rack and the lines of one board as bytes, by sections 4 and 5 of docs/RULES.md. Numbers are big-endian.
//!
//! `parts` and `compare` read and write job files with this crate. The second implementation has its own reader and
//! writer, because `compare` holds the proved library against it.
//!
//! ```
//! use job_file::{refusal, Job, Line, Refusal};
//!
//! // Ten placements with tip 0, and one with tip 1 or 2.
//! let job = Job { rack: 3, lines: vec![Line { set: 0b001, quantity: 10 }, Line { set: 0b110, quantity: 1 }] };
//! let mut file = job.write();
//! assert_eq!(Job::read(&file), Ok(job));
//!
//! // The second line without its placement.
//! file[25] = 0;
//! assert_eq!(Job::read(&file), Err(Refusal { number: refusal::ZERO_QUANTITY, line: 1 }));
//! ```

use std::ops::Range;

pub mod refusal;

/// The most tips of a rack.
pub const MOST_TIPS: usize = 64;
/// The most lines of a board.
pub const MOST_LINES: usize = 512;
/// The most placements of all lines together.
pub const MOST_PLACEMENTS: usize = 2048;

/// The bytes that every job file begins with.
pub const MARK: [u8; 3] = *b"TIP";
/// The number of bytes before the lines.
pub const HEAD: usize = 8;
/// The place of the version.
pub const AT_VERSION: Range<usize> = 3..5;
/// The place of the rack size.
pub const AT_RACK: usize = 5;
/// The place of the number of lines.
pub const AT_COUNT: Range<usize> = 6..8;
/// The number of bytes of a set.
const SET: usize = 8;
/// The length of the longest good file: 512 lines in version 2.
pub const LONGEST_FILE: usize = 4616;

/// Whether the bytes begin as a job file does.
pub fn has_mark(bytes: &[u8]) -> bool {
    bytes.starts_with(&MARK)
}

/// The version of a job file, which says what a line holds.
#[derive(Clone, Copy, PartialEq, Eq, Debug)]
pub enum Version {
    /// A set; the quantity is 1.
    One = 1,
    /// A set and a quantity.
    Two = 2,
}

impl Version {
    /// The version with this number, if there is one.
    pub fn of_number(number: u16) -> Option<Version> {
        [Version::One, Version::Two].into_iter().find(|version| version.number() == number)
    }

    pub fn number(self) -> u16 {
        self as u16
    }

    /// The number of bytes of a line.
    pub fn line(self) -> usize {
        match self {
            Version::One => SET,
            Version::Two => SET + 1,
        }
    }

    /// The length of a file with this number of lines.
    pub fn length_of(self, lines: usize) -> usize {
        HEAD + lines * self.line()
    }

    /// The place of a line's set.
    pub fn at_set(self, line: usize) -> Range<usize> {
        let first = self.length_of(line);
        first..first + SET
    }

    /// The place of a line's quantity, in version 2.
    pub fn at_quantity(self, line: usize) -> Option<usize> {
        match self {
            Version::One => None,
            Version::Two => Some(self.length_of(line) + SET),
        }
    }

    /// The line as the file has it, good or not. The file must hold the line whole.
    pub fn line_in(self, file: &[u8], line: usize) -> Line {
        let mut set = [0; SET];
        set.copy_from_slice(&file[self.at_set(line)]);
        Line { set: u64::from_be_bytes(set), quantity: self.at_quantity(line).map_or(1, |at| file[at]) }
    }
}

/// The numbers in the first 8 bytes of a file, good or not.
#[derive(Clone, Copy, PartialEq, Eq, Debug)]
pub struct Head {
    pub version: u16,
    pub rack: u8,
    /// The number of lines.
    pub count: u16,
}

impl Head {
    /// The head of these bytes, if there are 8. The mark is not looked at.
    pub fn of(bytes: &[u8]) -> Option<Head> {
        let &[_, _, _, high, low, rack, more, fewer, ..] = bytes else { return None };
        Some(Head { version: u16::from_be_bytes([high, low]), rack, count: u16::from_be_bytes([more, fewer]) })
    }

    /// The version, and version 1 for a number that no version has.
    pub fn form(&self) -> Version {
        Version::of_number(self.version).unwrap_or(Version::One)
    }
}

/// One line of a board.
#[derive(Clone, Copy, PartialEq, Eq, Debug)]
pub struct Line {
    /// The tips that can pick its part, bit t for tip t.
    pub set: u64,
    /// The number of its placements, which all share a tip.
    pub quantity: u8,
}

impl Line {
    /// The number of the line's refusal in a rack of this size, if it has one.
    fn refusal(&self, rack: usize) -> Option<u32> {
        // One more than the highest tip; 0 without a tip.
        let reach = u64::BITS - self.set.leading_zeros();
        if reach == 0 {
            Some(refusal::EMPTY_LINE)
        } else if reach as usize > rack {
            Some(refusal::TIP_OUTSIDE)
        } else if self.quantity == 0 {
            Some(refusal::ZERO_QUANTITY)
        } else {
            None
        }
    }
}

/// Why a job file is refused.
#[derive(Clone, Copy, PartialEq, Eq, Debug)]
pub struct Refusal {
    pub number: u32,
    /// The line that 2, 3, 15 or 30 is about; 0 with any other number.
    pub line: usize,
}

impl Refusal {
    /// A refusal that is about no line.
    fn of_file(number: u32) -> Refusal {
        Refusal { number, line: 0 }
    }
}

/// The board that a job file holds.
#[derive(Clone, PartialEq, Eq, Debug)]
pub struct Job {
    /// The number of tips in the rack.
    pub rack: usize,
    pub lines: Vec<Line>,
}

impl Job {
    /// Reads a job file of either version. The first refusal of the order in section 4.3 is returned.
    pub fn read(file: &[u8]) -> Result<Job, Refusal> {
        let head = Head::of(file).ok_or(Refusal::of_file(refusal::SHORT_FILE))?;
        if !has_mark(file) {
            return Err(Refusal::of_file(refusal::WRONG_MARK));
        }
        let version = Version::of_number(head.version).ok_or(Refusal::of_file(refusal::WRONG_VERSION))?;
        let (rack, count) = (usize::from(head.rack), usize::from(head.count));
        if !(1..=MOST_TIPS).contains(&rack) {
            return Err(Refusal::of_file(refusal::RACK_SIZE));
        }
        if count > MOST_LINES {
            return Err(Refusal::of_file(refusal::FILE_LINES));
        }
        if file.len() != version.length_of(count) {
            return Err(Refusal::of_file(refusal::FILE_LENGTH));
        }
        let lines = (0..count).map(|line| version.line_in(file, line)).collect();
        let job = Job { rack, lines };
        job.first_bad_line().or_else(|| job.first_line_too_many()).map_or(Ok(job), Err)
    }

    /// The refusal of the first line that is bad by itself.
    fn first_bad_line(&self) -> Option<Refusal> {
        let mut lines = self.lines.iter().enumerate();
        lines.find_map(|(line, of_line)| Some(Refusal { number: of_line.refusal(self.rack)?, line }))
    }

    /// The refusal of the first line with which there are too many placements.
    fn first_line_too_many(&self) -> Option<Refusal> {
        let mut total = 0;
        let passes = |line: &Line| {
            total += usize::from(line.quantity);
            total > MOST_PLACEMENTS
        };
        let line = self.lines.iter().position(passes)?;
        Some(Refusal { number: refusal::TOO_MANY_PLACEMENTS, line })
    }

    /// The bytes of the file: of version 1 if every quantity is 1, else of version 2.
    ///
    /// Nothing is checked. A job that breaks a rule makes a file that [`Job::read`] refuses.
    pub fn write(&self) -> Vec<u8> {
        self.write_in(self.version())
    }

    /// The bytes of the file in this version. Version 1 leaves the quantities out.
    pub fn write_in(&self, version: Version) -> Vec<u8> {
        // Too large a number becomes one that is refused as well.
        let rack = u8::try_from(self.rack).unwrap_or(u8::MAX);
        let count = u16::try_from(self.lines.len()).unwrap_or(u16::MAX);
        let mut file = Vec::with_capacity(version.length_of(self.lines.len()));
        file.extend(MARK);
        file.extend(version.number().to_be_bytes());
        file.push(rack);
        file.extend(count.to_be_bytes());
        for line in &self.lines {
            file.extend(line.set.to_be_bytes());
            if version == Version::Two {
                file.push(line.quantity);
            }
        }
        file
    }

    /// The version that is written.
    pub fn version(&self) -> Version {
        if self.is_single() {
            Version::One
        } else {
            Version::Two
        }
    }

    /// Whether every line has one placement.
    pub fn is_single(&self) -> bool {
        self.lines.iter().all(|line| line.quantity == 1)
    }

    /// The number of placements of all lines.
    pub fn placements(&self) -> usize {
        self.lines.iter().map(|line| usize::from(line.quantity)).sum()
    }
}
