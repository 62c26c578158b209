//! Job files mended by the proved library, with each change in words.

use job_file::{Head, Version, HEAD};

use crate::job::job_of;
use crate::{counted, refusal, tips_in_words, MOST_PLACEMENTS};

/// The bytes of a change in a report: the line, 16 bits, and what was changed.
const CHANGE: usize = 3;
/// The line of a change that is about the whole file.
const WHOLE_FILE: u16 = u16::MAX;

/// A mended job file, and what is said of each change.
pub struct Mended {
    pub file: Vec<u8>,
    pub text: String,
    /// How many parts of the file found are not in the mended one.
    pub lost: usize,
}

impl Mended {
    /// What is told last where parts are lost, and what to do.
    pub fn warning(&self) -> Option<String> {
        let what_to_do = "copy the file again, or make it again from its list";
        (self.lost > 0).then(|| format!("{}; {what_to_do}", lost_in_words(self.lost)))
    }
}

/// How many parts are lost, in letters that nobody overlooks.
fn lost_in_words(lost: usize) -> String {
    counted(lost as u64, "PART").replace("PARTs", "PARTS") + " LOST"
}

/// Mends a job file whose first 8 bytes name mark, version and rack size well.
pub fn mend(found: &[u8]) -> Result<Mended, String> {
    // Nothing written is longer than the file found, and no line gets more than three changes.
    let mut file = vec![0; found.len()];
    let mut report = vec![0; library::LONGEST_CHANGES];
    let lengths = library::mend(found, &mut file, &mut report)
        .map_err(|refusal| refusal::in_words(refusal.number, refusal.line as usize, found))?;
    file.truncate(lengths.file as usize);
    report.truncate(lengths.report as usize);
    let job = job_of(&file)?;
    let found = Found::new(found, &report, job.lines.len());
    let (mut text, lost) = (found.changes_in_words(), found.lost());
    let mut changes = match report.len() / CHANGE {
        0 => "no change".into(),
        number => counted(number as u64, "change"),
    };
    if lost > 0 {
        changes += &format!(", {}", lost_in_words(lost));
    }
    text += &format!("lines {} rack {}, {changes}\n", job.lines.len(), job.rack);
    Ok(Mended { file, text, lost })
}

/// The file that was found, and what the library tells of it.
struct Found<'a> {
    bytes: &'a [u8],
    version: Version,
    rack: usize,
    /// The number of lines that the first 8 bytes say.
    said: usize,
    /// The number of lines in the mended file.
    written: usize,
    /// Line and code of each change.
    changes: Vec<(u16, u8)>,
}

impl<'a> Found<'a> {
    fn new(bytes: &'a [u8], report: &[u8], written: usize) -> Found<'a> {
        let head = Head::of(bytes).expect("a file that can be mended has 8 bytes");
        let changes = report.chunks(CHANGE).map(|change| (u16::from_be_bytes([change[0], change[1]]), change[2]));
        Found {
            bytes,
            version: head.form(),
            rack: head.rack.into(),
            said: head.count.into(),
            written,
            changes: changes.collect(),
        }
    }

    fn set(&self, line: usize) -> u64 {
        self.version.line_in(self.bytes, line).set
    }

    /// The number of lines that were read.
    fn read(&self) -> usize {
        self.said.min(self.held()).min(crate::MOST_LINES)
    }

    /// The number of whole lines that the bytes hold.
    fn held(&self) -> usize {
        (self.bytes.len() - HEAD) / self.version.line()
    }

    /// How many parts the file found has or says, and the mended one lacks. What follows the lines that were read is a part
    /// where it looks like one: the number of lines may be what is damaged.
    fn lost(&self) -> usize {
        let is_part = |line: &usize| self.set(*line) != 0 && self.outside(*line) == 0;
        let behind = (self.read()..self.held()).filter(is_part).count();
        self.said.max(self.read() + behind).saturating_sub(self.written)
    }

    /// The tips of a line that are outside the rack.
    fn outside(&self, line: usize) -> u64 {
        self.set(line) & !(u64::MAX >> (64 - self.rack))
    }

    fn changes_in_words(&self) -> String {
        let mut text = String::new();
        let mut passed = None;
        for &(line, code) in &self.changes {
            let place = usize::from(line);
            let has = |other: u8| self.changes.contains(&(line, other));
            let what = match code {
                1 => {
                    let cleared = self.outside(place);
                    let tips = if cleared.count_ones() == 1 { "tip" } else { "tips" };
                    format!("{tips} {} cleared, outside the rack of {}", tips_in_words(cleared), self.rack)
                }
                2 if has(1) => "dropped, no tip is left".into(),
                2 => "dropped, it has no tip".into(),
                3 => "quantity 0 raised to 1".into(),
                4 => match passed {
                    None => {
                        passed = Some(place);
                        format!("dropped, with it there are more than {MOST_PLACEMENTS} placements")
                    }
                    Some(first) => format!("dropped, it comes after line {first}"),
                },
                5 => format!("{} said, {} written", counted(self.said as u64, "line"), self.written),
                6 => self.behind(),
                _ => format!("changed in a way {code} that is not known"),
            };
            text += &match line {
                WHOLE_FILE => format!("the file: {what}\n"),
                _ => format!("line {line}: {what}\n"),
            };
        }
        text
    }

    /// What follows the last line read.
    fn behind(&self) -> String {
        let read = self.read();
        let bytes = self.bytes.len() - self.version.length_of(read);
        let left = counted(bytes as u64, "byte");
        match read.checked_sub(1) {
            Some(last) => format!("{left} after line {last} left out"),
            None => format!("{left} after the first {HEAD} left out"),
        }
    }
}
