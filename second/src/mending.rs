//! Mending a job file: what can be read of it is written as a good file, and each change is told.

use crate::board::{Line, MOST_LINES, MOST_PLACEMENTS, MOST_TIPS};
use crate::file::{number_in, Version, AT_COUNT, AT_RACK, AT_VERSION, HEAD, MARK, SET};
use crate::refusal;

/// The bytes of one change in a report.
pub const CHANGE: usize = 3;
/// The line number of what is told of the file as a whole.
const WHOLE_FILE: u16 = u16::MAX;

/// What can be changed, in the order in which it is told of one line.
#[derive(Clone, Copy, PartialEq, Eq, PartialOrd, Ord, Debug)]
pub enum What {
    /// Tips outside the rack are cleared.
    TipsCleared = 1,
    /// The line has no tip left and is dropped.
    DroppedAsEmpty = 2,
    /// The quantity was 0 and is 1.
    QuantityRaised = 3,
    /// The line, or one before it, would pass 2,048 placements, and is dropped.
    DroppedForTotal = 4,
    /// The number of lines written is not the one found.
    CountChanged = 5,
    /// Bytes followed the last line read.
    BytesBehind = 6,
}

/// One change of a report.
#[derive(Clone, Copy, PartialEq, Eq, Debug)]
pub struct Change {
    /// The number of the line in the file found, or that of the whole file.
    pub line: u16,
    pub what: What,
}

impl Change {
    /// The bytes in a report.
    pub fn bytes(self) -> [u8; CHANGE] {
        let [high, low] = self.line.to_be_bytes();
        [high, low, self.what as u8]
    }
}

/// A mended file and its changes.
#[derive(Clone, PartialEq, Eq, Debug)]
pub struct Mended {
    pub file: Vec<u8>,
    pub changes: Vec<Change>,
}

impl Mended {
    /// The bytes of the report.
    pub fn report(&self) -> Vec<u8> {
        self.changes.iter().flat_map(|change| change.bytes()).collect()
    }
}

/// Version, rack size and number of lines in the first 8 bytes, or the number of what is wrong with them.
fn head_of(file: &[u8]) -> Result<(Version, usize, usize), u32> {
    if file.len() < HEAD {
        return Err(refusal::SHORT_FILE);
    }
    if !file.starts_with(&MARK) {
        return Err(refusal::WRONG_MARK);
    }
    let version = Version::of_number(number_in(&file[AT_VERSION]) as u16).ok_or(refusal::WRONG_VERSION)?;
    let rack = usize::from(file[AT_RACK]);
    if rack == 0 || rack > MOST_TIPS {
        return Err(refusal::RACK_SIZE);
    }
    Ok((version, rack, number_in(&file[AT_COUNT]) as usize))
}

/// The set without the tips that a rack of this size has not.
fn within(set: u64, rack: usize) -> u64 {
    (0..rack).filter(|tip| set >> tip & 1 == 1).fold(0, |kept, tip| kept | 1 << tip)
}

/// The mended file, or the number of what is wrong with its first 8 bytes.
pub fn mended(file: &[u8]) -> Result<Mended, u32> {
    let (version, rack, found) = head_of(file)?;
    let (lines, rest) = {
        let whole = (file.len() - HEAD) / version.line();
        let number = found.min(whole).min(MOST_LINES);
        file[HEAD..].split_at(number * version.line())
    };
    let mut changes = Vec::new();
    let mut kept: Vec<Line> = Vec::new();
    let mut total = 0;
    // Set once the first line would pass: it goes, and so do all after it.
    let mut passed = false;
    for (number, bytes) in (0..).zip(lines.chunks(version.line())) {
        let mut change = |what: What| changes.push(Change { line: number, what });
        if passed {
            change(What::DroppedForTotal);
            continue;
        }
        let (set, quantity) = bytes.split_at(SET);
        let (set, mut quantity) = (number_in(set), quantity.first().copied().unwrap_or(1));
        let tips = within(set, rack);
        if tips != set {
            change(What::TipsCleared);
        }
        if tips == 0 {
            change(What::DroppedAsEmpty);
            continue;
        }
        if quantity == 0 {
            change(What::QuantityRaised);
            quantity = 1;
        }
        total += usize::from(quantity);
        passed = total > MOST_PLACEMENTS;
        if passed {
            change(What::DroppedForTotal);
        } else {
            kept.push(Line { set: tips, quantity });
        }
    }
    let mut of_file = |applies: bool, what: What| {
        if applies {
            changes.push(Change { line: WHOLE_FILE, what });
        }
    };
    of_file(kept.len() != found, What::CountChanged);
    of_file(!rest.is_empty(), What::BytesBehind);
    let mut written = file[..AT_COUNT.start].to_vec();
    written.extend((kept.len() as u16).to_be_bytes());
    for line in &kept {
        written.extend(line.set.to_be_bytes());
        if version == Version::Two {
            written.push(line.quantity);
        }
    }
    Ok(Mended { file: written, changes })
}

/// What a mending that writes tells: its number, and the lengths of the file and of the report.
#[derive(Clone, Copy, PartialEq, Eq, Debug)]
pub struct Mending {
    pub number: u32,
    pub file: usize,
    pub report: usize,
}

/// Writes the mended file and the report to the beginning of two outputs, to both or to none.
pub fn mend(file: &[u8], out: &mut [u8], report: &mut [u8]) -> Mending {
    let refused = |number: u32| Mending { number, file: 0, report: 0 };
    let mended = match mended(file) {
        Ok(mended) => mended,
        Err(number) => return refused(number),
    };
    let changes = mended.report();
    if out.len() < mended.file.len() || report.len() < changes.len() {
        return refused(refusal::SHORT_OUTPUT);
    }
    out[..mended.file.len()].copy_from_slice(&mended.file);
    report[..changes.len()].copy_from_slice(&changes);
    Mending { number: refusal::ACCEPTED, file: mended.file.len(), report: changes.len() }
}
