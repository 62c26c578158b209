//! Which suction tip of a desktop placer picks which line of a parts list: the proved library, in safe Rust.
//!
//! The calls work on a job file in memory, which [`job_file`] makes of sets of tips, bit t for tip t. Slices go in, values
//! or a [`Refusal`] come out; a refused call writes to no buffer. What each call promises is in `include/tipshare.h`.
//!
//! ```
//! // A rack of 6 tips: a part for tips 0 and 1, one for 1 to 3 that is placed twice, and one for tips 3 and 4.
//! let file = tipshare::job_file(6, &[(0b00_0011, 1), (0b00_1110, 2), (0b01_1000, 1)]);
//! let mut plan = [0; 3];
//! let mut table = [0; 6 * 6];
//! assert_eq!(tipshare::best(&file, None, &mut plan, &mut table), Ok(3));
//! assert_eq!(plan, [0, 3, 3]);
//!
//! // A part without a tip is refused, with its line.
//! let refusal = tipshare::read(&tipshare::job_file(6, &[(0b1, 1), (0, 1)])).unwrap_err();
//! assert_eq!((refusal.number, refusal.line), (2, 1));
//! assert_eq!(refusal.to_string(), "refused 2: a line has no tip, line 1");
//! ```
//!
//! The crate links `target/staticlib/libtipshare_c.a` of this repository, which `make` proves and builds, or the file that
//! the environment variable `TIPSHARE_LIB` names, as the `libtipshare.a` of an installation. It is for x86-64 Linux. This
//! file, which is between a caller and that library, is not proved.

use std::fmt;

/// The version of this crate.
pub const VERSION: &str = env!("CARGO_PKG_VERSION");
/// A refusal on each line, its number and its words; the C library has its words from this file too.
const WORDS: &str = include_str!("../words.txt");

/// The places of an answer.
pub const ANSWER_PLACES: usize = 4;
/// The bytes that the buffer of a report needs.
pub const REPORT_SPACE: usize = 16_384;
/// The largest rack that is planned for the Junior.
pub const JUNIOR_TIPS: usize = 8;
/// The most lines that are planned for the Junior.
pub const JUNIOR_LINES: usize = 64;
/// The longest good job file: an output of keep, goal, merge or mend that is always enough.
pub const LONGEST_FILE: usize = 4_616;
/// The longest report of a mending: a buffer that is always enough.
pub const LONGEST_CHANGES: usize = 3_081;
/// The most named tips that are shared exactly.
pub const EXACT_TIPS: usize = 20;
/// The most places of a table of exact sharing: a table that is always enough.
pub const EXACT_PLACES: usize = 2 << EXACT_TIPS;
/// The mounted tip of the header's functions for no tip.
pub const NO_TIP: usize = usize::MAX;
/// The most parts to order: an order buffer, or one of positions, that is always enough.
pub const MOST_PARTS: usize = 128;

/// Why a call was refused.
#[derive(Clone, Copy, PartialEq, Eq, Debug)]
pub struct Refusal {
    pub number: u32,
    /// The line that it is about, for 2, 3, 15, 25 and 30, the part for 12, and for 3 of an order by tips, and the rule for
    /// 13. It does not say which of two files is meant; 0 for the 30 of a panel.
    pub line: u64,
    /// How far the bound is missed, for 26.
    pub margin: i64,
}

impl fmt::Display for Refusal {
    fn fmt(&self, to: &mut fmt::Formatter) -> fmt::Result {
        write!(to, "refused {}: {}", self.number, self.words())?;
        match self.number {
            // Of one file no first line passes 2,048 placements.
            30 if self.line == 0 => Ok(()),
            2 | 3 | 15 | 25 | 30 => write!(to, ", line {}", self.line),
            12 => write!(to, ", part {}", self.line),
            13 => write!(to, ", rule {}", self.line),
            26 => write!(to, ", margin {}", self.margin),
            _ => Ok(()),
        }
    }
}

impl std::error::Error for Refusal {}

impl Refusal {
    /// What is wrong, without the place.
    pub fn words(&self) -> &'static str {
        words(self.number)
    }
}

/// A refusal's number in words; 0 is `accepted`.
///
/// ```
/// assert_eq!(tipshare::words(26), "no plan meets the bound");
/// assert_eq!(tipshare::words(18), "unknown number");
/// ```
pub fn words(number: u32) -> &'static str {
    let mut rows = WORDS.lines().filter_map(|line| line.split_once(' '));
    let row = rows.find(|(found, _)| found.parse::<u32>() == Ok(number));
    row.map_or("unknown number", |(_, words)| words)
}

/// The job file of lines, each a set of tips, bit t for tip t, and a quantity: of version 1 if every quantity is 1, else
/// of version 2. Nothing is checked here: the calls refuse what is wrong, more than 512 lines among it.
///
/// ```
/// let file = tipshare::job_file(3, &[(0b001, 1), (0b110, 1)]);
/// assert_eq!(tipshare::read(&file), Ok(tipshare::Job { rack: 3, lines: 2 }));
/// ```
pub fn job_file(rack: u8, lines: &[(u64, u8)]) -> Vec<u8> {
    let counted = lines.iter().any(|&(_, quantity)| quantity != 1);
    let count = u16::try_from(lines.len()).unwrap_or(u16::MAX);
    let mut file = [&b"TIP\0"[..], &[if counted { 2 } else { 1 }, rack], &count.to_be_bytes()].concat();
    for (set, quantity) in lines {
        file.extend(set.to_be_bytes());
        if counted {
            file.push(*quantity);
        }
    }
    file
}

/// What a job file of either version names.
#[derive(Clone, Copy, PartialEq, Eq, Debug)]
pub struct Job {
    pub rack: u64,
    pub lines: u64,
}

/// The tips that most placements can use.
#[derive(Clone, Copy, PartialEq, Eq, Debug)]
pub struct CommonTip {
    pub top: u64,
    pub off: u64,
    pub tips: u64,
}

/// A part to be placed, its positions counted from 0.
#[derive(Clone, Copy, PartialEq, Eq, Debug)]
pub struct Part {
    pub first: u32,
    pub last: u32,
    pub fine: bool,
    pub tall: bool,
}

/// What keep wrote, and by how much the bound is met.
#[derive(Clone, Copy, PartialEq, Eq, Debug)]
pub struct Kept {
    pub margin: i64,
    pub bytes: u64,
}

/// A plan of the Junior: its pairs of placements, and its two tips, which are equal if one serves every line.
#[derive(Clone, Copy, PartialEq, Eq, Debug)]
pub struct Junior {
    pub pairs: u64,
    pub u: u64,
    pub v: u64,
}

/// The answer of a call whose answer buffer has its 4 places.
fn answer_of(call: impl FnOnce(&mut [u64]) -> u32) -> Result<[u64; ANSWER_PLACES], Refusal> {
    let mut answer = [0; ANSWER_PLACES];
    match call(&mut answer) {
        0 => Ok(answer),
        number => Err(Refusal { number, line: answer[0], margin: answer[1] as i64 }),
    }
}

/// Reads a job file.
///
/// ```
/// let file = tipshare::job_file(3, &[(0b001, 1), (0b110, 4)]);
/// assert_eq!(tipshare::read(&file).unwrap().lines, 2);
/// assert_eq!(tipshare::read(&file[..20]).unwrap_err().number, 10);
/// ```
pub fn read(file: &[u8]) -> Result<Job, Refusal> {
    let answer = answer_of(|answer| on_slices::read(file, answer))?;
    Ok(Job { rack: answer[1], lines: answer[2] })
}

/// Finds the tips that most placements can use.
///
/// ```
/// let file = tipshare::job_file(3, &[(0b001, 1), (0b011, 1), (0b110, 1)]);
/// let common = tipshare::common(&file).unwrap();
/// assert_eq!((common.top, common.off, common.tips), (2, 1, 0b011));
/// ```
pub fn common(file: &[u8]) -> Result<CommonTip, Refusal> {
    let answer = answer_of(|answer| on_slices::common(file, answer))?;
    Ok(CommonTip { top: answer[1], off: answer[2], tips: answer[3] })
}

/// Keeps within k and writes the kept board to out, as version 1 if every quantity is 1.
///
/// ```
/// let file = tipshare::job_file(3, &[(0b001, 1), (0b011, 1), (0b110, 1), (0b010, 1)]);
/// let mut out = [0; tipshare::LONGEST_FILE];
/// // Three of the four can be on tip 1, so that one is off it at least.
/// let kept = tipshare::keep(&file, 1, &mut out).unwrap();
/// assert_eq!(kept.margin, 0);
/// assert_eq!(out[..kept.bytes as usize], tipshare::job_file(3, &[(0b001, 1), (0b010, 1), (0b010, 1), (0b010, 1)]));
/// assert_eq!(tipshare::keep(&file, 0, &mut out).unwrap_err().margin, -1);
/// ```
pub fn keep(file: &[u8], k: u16, out: &mut [u8]) -> Result<Kept, Refusal> {
    let answer = answer_of(|answer| on_slices::keep(file, k, out, answer))?;
    Ok(Kept { margin: answer[1] as i64, bytes: answer[2] })
}

/// Strikes from lines that are runs the tips that no plan with at least this many pairs uses, and writes what is left to
/// out, as version 1 if every quantity is 1; returns the number of bytes written.
///
/// ```
/// let file = tipshare::job_file(2, &[(0b01, 1), (0b11, 1)]);
/// let mut out = [0; tipshare::LONGEST_FILE];
/// let bytes = tipshare::goal(&file, 1, &mut out).unwrap();
/// assert_eq!(out[..bytes as usize], tipshare::job_file(2, &[(0b01, 1), (0b01, 1)]));
/// assert_eq!(tipshare::goal(&file, 2, &mut out).unwrap_err().number, 34);
/// ```
pub fn goal(file: &[u8], goal: u32, out: &mut [u8]) -> Result<u64, Refusal> {
    Ok(answer_of(|answer| on_slices::goal(file, goal, out, answer))?[1])
}

/// The mounted tip as the header has it; the header's number for none is no tip here.
fn number_of(mounted: Option<usize>) -> usize {
    mounted.map_or(NO_TIP, |tip| tip.min(NO_TIP - 1))
}

/// Plans by rounds, with the mounted tip first on a tie; returns the number of pairs of placements.
///
/// ```
/// let file = tipshare::job_file(3, &[(0b001, 1), (0b110, 1)]);
/// let mut plan = [0; 2];
/// assert_eq!(tipshare::quick(&file, Some(2), &mut plan), Ok(0));
/// assert_eq!(plan, [0, 2]);
/// ```
pub fn quick(file: &[u8], mounted: Option<usize>, plan: &mut [u8]) -> Result<u64, Refusal> {
    Ok(answer_of(|answer| on_slices::quick(file, number_of(mounted), plan, answer))?[1])
}

/// Plans lines that are runs of the tips which some line has, with the most pairs of placements, and with the mounted tip
/// first on a tie; returns the number of pairs.
///
/// ```
/// let file = tipshare::job_file(3, &[(0b001, 2), (0b011, 3), (0b110, 3), (0b100, 2)]);
/// let (mut plan, mut table) = ([0; 4], [0; 9]);
/// assert_eq!(tipshare::best(&file, None, &mut plan, &mut table), Ok(20));
/// assert_eq!(plan, [0, 0, 2, 2]);
/// ```
pub fn best(file: &[u8], mounted: Option<usize>, plan: &mut [u8], table: &mut [u32]) -> Result<u64, Refusal> {
    Ok(answer_of(|answer| on_slices::best(file, number_of(mounted), plan, table, answer))?[1])
}

/// A plan along the list: its tip changes, with the one before the first line, and its pairs of placements.
#[derive(Clone, Copy, PartialEq, Eq, Debug)]
pub struct Along {
    pub changes: u64,
    pub pairs: u64,
}

/// Plans the lines in the order of the list, with the fewest tip changes.
///
/// ```
/// let file = tipshare::job_file(4, &[(0b0011, 1), (0b0110, 1), (0b1100, 1)]);
/// let mut plan = [0; 3];
/// // Tip 1 serves the first two lines, and no tip serves all three.
/// assert_eq!(tipshare::along(&file, None, &mut plan), Ok(tipshare::Along { changes: 1, pairs: 1 }));
/// assert_eq!(plan, [1, 1, 2]);
/// // Tip 0 is on the head, and serves the first line alone.
/// assert_eq!(tipshare::along(&file, Some(0), &mut plan), Ok(tipshare::Along { changes: 1, pairs: 1 }));
/// assert_eq!(plan, [0, 2, 2]);
/// ```
pub fn along(file: &[u8], mounted: Option<usize>, plan: &mut [u8]) -> Result<Along, Refusal> {
    let answer = answer_of(|answer| on_slices::along(file, number_of(mounted), plan, answer))?;
    Ok(Along { changes: answer[1], pairs: answer[2] })
}

/// A plan of exact sharing: its pairs of placements, and the number of different tips that it uses.
#[derive(Clone, Copy, PartialEq, Eq, Debug)]
pub struct Exact {
    pub pairs: u64,
    pub tips: u64,
}

/// Plans any lines that name at most 20 tips, so that no other plan has more pairs of placements less the price of each tip
/// that it uses. The table needs 2 places for each set of named tips.
///
/// ```
/// // Tips 0, 1 and 2 with 10 pairs, or tips 1 and 2 with 9.
/// let file = tipshare::job_file(3, &[(0b011, 3), (0b101, 2), (0b010, 1), (0b100, 1)]);
/// let (mut plan, mut table) = ([0; 4], [0; 2 * 8]);
/// let exact = tipshare::exact(&file, None, 0, &mut plan, &mut table);
/// assert_eq!((exact, plan), (Ok(tipshare::Exact { pairs: 10, tips: 3 }), [0, 0, 1, 2]));
/// let exact = tipshare::exact(&file, None, 2, &mut plan, &mut table);
/// assert_eq!((exact, plan), (Ok(tipshare::Exact { pairs: 9, tips: 2 }), [1, 2, 1, 2]));
/// ```
pub fn exact(
    file: &[u8],
    mounted: Option<usize>,
    price: u32,
    plan: &mut [u8],
    table: &mut [u32],
) -> Result<Exact, Refusal> {
    let mounted = number_of(mounted);
    let answer = answer_of(|answer| on_slices::exact(file, mounted, price, plan, table, answer))?;
    Ok(Exact { pairs: answer[1], tips: answer[2] })
}

/// Checks a plan from other software, with its claimed pairs and its table, for lines that are runs; what is accepted has
/// the most pairs of placements.
///
/// ```
/// let file = tipshare::job_file(2, &[(0b01, 1), (0b11, 1)]);
/// assert_eq!(tipshare::check(&file, &[0, 0], 1, &[0, 1, 0, 0]), Ok(()));
/// assert_eq!(tipshare::check(&file, &[0, 1], 1, &[0, 1, 0, 0]).unwrap_err().number, 20);
/// ```
pub fn check(file: &[u8], plan: &[u8], claim: u32, table: &[u32]) -> Result<(), Refusal> {
    answer_of(|answer| on_slices::check(file, plan, claim, table, answer))?;
    Ok(())
}

/// Plans for the Junior, with one tip or two; no plan on one tip or two has more pairs of placements.
///
/// ```
/// let file = tipshare::job_file(3, &[(0b100, 1), (0b110, 1)]);
/// let mut plan = [0; 2];
/// assert_eq!(tipshare::junior(&file, &mut plan), Ok(tipshare::Junior { pairs: 1, u: 2, v: 2 }));
/// ```
pub fn junior(file: &[u8], plan: &mut [u8]) -> Result<Junior, Refusal> {
    let answer = answer_of(|answer| on_slices::junior(file, plan, answer))?;
    Ok(Junior { pairs: answer[1], u: answer[2], v: answer[3] })
}

/// Merges two boards of one rack and writes the panel to out, the lines of the first and then those of the second, as
/// version 1 if every quantity is 1; returns the number of bytes.
///
/// ```
/// let file = tipshare::job_file(3, &[(0b001, 1)]);
/// let mut out = [0; tipshare::LONGEST_FILE];
/// let bytes = tipshare::merge(&file, &file, &mut out).unwrap();
/// assert_eq!(out[..bytes as usize], tipshare::job_file(3, &[(0b001, 1), (0b001, 1)]));
/// ```
pub fn merge(first: &[u8], second: &[u8], out: &mut [u8]) -> Result<u64, Refusal> {
    Ok(answer_of(|answer| on_slices::merge(first, second, out, answer))?[1])
}

/// Plans each of two boards alone by rounds, the second plan after the first in the buffer; returns the pairs of placements
/// of both.
///
/// ```
/// let (first, second) = (tipshare::job_file(3, &[(0b001, 2)]), tipshare::job_file(5, &[(0b10000, 1)]));
/// let mut plan = [0; 2];
/// assert_eq!(tipshare::alone(&first, &second, &mut plan), Ok((1, 0)));
/// assert_eq!(plan, [0, 4]);
/// ```
pub fn alone(first: &[u8], second: &[u8], plan: &mut [u8]) -> Result<(u64, u64), Refusal> {
    let answer = answer_of(|answer| on_slices::alone(first, second, plan, answer))?;
    Ok((answer[1], answer[2]))
}

/// The lengths of what a mending wrote.
#[derive(Clone, Copy, PartialEq, Eq, Debug)]
pub struct Mended {
    pub file: u64,
    pub report: u64,
}

/// Mends a file whose first 8 bytes are good, except for the count: writes a good file to out, and to the report three bytes
/// for each change.
///
/// ```
/// // The second line has tip 3, which a rack of 3 lacks, and no other.
/// let file = tipshare::job_file(3, &[(0b0001, 1), (0b1000, 1)]);
/// let (mut out, mut report) = ([0; tipshare::LONGEST_FILE], [0; tipshare::LONGEST_CHANGES]);
/// let mended = tipshare::mend(&file, &mut out, &mut report).unwrap();
/// assert_eq!(out[..mended.file as usize], tipshare::job_file(3, &[(0b0001, 1)]));
/// // Line 1: tips cleared, dropped as empty; the file: another number of lines.
/// assert_eq!(report[..mended.report as usize], [0, 1, 1, 0, 1, 2, 255, 255, 5]);
/// ```
pub fn mend(file: &[u8], out: &mut [u8], report: &mut [u8]) -> Result<Mended, Refusal> {
    let answer = answer_of(|answer| on_slices::mend(file, out, report, answer))?;
    Ok(Mended { file: answer[1], report: answer[2] })
}

/// Parts and rules as the header has them: 4 numbers a part, and 2 a rule.
fn numbers_of(parts: &[Part], rules: &[(u32, u32)]) -> (Vec<u32>, Vec<u32>) {
    let of_part = |part: &Part| [part.first, part.last, part.fine.into(), part.tall.into()];
    let of_rule = |&(earlier, later): &(u32, u32)| [earlier, later];
    (parts.iter().flat_map(of_part).collect(), rules.iter().flat_map(of_rule).collect())
}

/// The order in which parts are placed: fine ones first, tall ones last, each within its positions, and of each rule's two
/// parts the first before the second; of all such orders the least. A tall part's fine flag is ignored. Gives the number of
/// parts.
///
/// ```
/// let part = tipshare::Part { first: 0, last: 2, fine: false, tall: false };
/// let tall = tipshare::Part { tall: true, ..part };
/// let mut order = [0; 3];
/// // Part 2 goes before part 1, and the tall one last.
/// assert_eq!(tipshare::order(&[tall, part, part], &[(2, 1)], &mut order), Ok(3));
/// assert_eq!(order, [2, 1, 0]);
/// ```
pub fn order(parts: &[Part], rules: &[(u32, u32)], order: &mut [u8]) -> Result<u64, Refusal> {
    let (parts, rules) = numbers_of(parts, rules);
    Ok(answer_of(|answer| on_slices::order(&parts, &rules, order, answer))?[1])
}

/// Finds the first and the last position that each part has in any order that obeys positions, flags and rules as
/// [`order()`] does, and writes one byte a part to each buffer; gives the number of parts.
///
/// ```
/// let part = tipshare::Part { first: 0, last: 2, fine: false, tall: false };
/// let (mut first, mut last) = ([0; 3], [0; 3]);
/// // Part 2 goes before part 1.
/// assert_eq!(tipshare::windows(&[part; 3], &[(2, 1)], &mut first, &mut last), Ok(3));
/// assert_eq!((first, last), ([0, 1, 0], [2, 2, 1]));
/// ```
pub fn windows(parts: &[Part], rules: &[(u32, u32)], first: &mut [u8], last: &mut [u8]) -> Result<u64, Refusal> {
    let (parts, rules) = numbers_of(parts, rules);
    Ok(answer_of(|answer| on_slices::windows(&parts, &rules, first, last, answer))?[1])
}

/// The number of parts of an order by tips, and its tip changes, with the one before the first part.
#[derive(Clone, Copy, PartialEq, Eq, Debug)]
pub struct OrderedByTips {
    pub parts: u64,
    pub changes: u64,
}

/// The order in which parts are placed as [`order()`] has it, but a part on the tip of the part before it comes first where
/// it can, and at position 0 one on the mounted tip. The plan has the tip of each part, 0 to 63.
///
/// ```
/// let part = tipshare::Part { first: 0, last: 2, fine: false, tall: false };
/// let mut order = [0; 3];
/// // Parts 0 and 2 are on tip 5, and part 1 on tip 7.
/// let ordered = tipshare::order_by_tips(&[part; 3], &[], &[5, 7, 5], None, &mut order);
/// assert_eq!(ordered, Ok(tipshare::OrderedByTips { parts: 3, changes: 1 }));
/// assert_eq!(order, [0, 2, 1]);
/// ```
pub fn order_by_tips(
    parts: &[Part],
    rules: &[(u32, u32)],
    plan: &[u8],
    mounted: Option<usize>,
    order: &mut [u8],
) -> Result<OrderedByTips, Refusal> {
    let (parts, rules) = numbers_of(parts, rules);
    let mounted = number_of(mounted);
    let answer = answer_of(|answer| on_slices::order_by_tips(&parts, &rules, plan, mounted, order, answer))?;
    Ok(OrderedByTips { parts: answer[1], changes: answer[2] })
}

/// The report for a file.
///
/// ```
/// assert_eq!(tipshare::report(b"no job file"), b"refused 7\n");
/// ```
pub fn report(file: &[u8]) -> Vec<u8> {
    let mut text = vec![0; REPORT_SPACE];
    let length = on_slices::report(file, &mut text);
    text.truncate(length);
    text
}

/// The functions as the header has them, each pointer and length as one slice.
pub mod on_slices {
    use super::declared;

    // Safety of every call below: a slice is a valid pointer with its length, and no two slices overlap.

    pub fn read(file: &[u8], answer: &mut [u64]) -> u32 {
        unsafe { declared::tipshare_read(file.as_ptr(), file.len() as u64, answer.as_mut_ptr(), answer.len() as u64) }
    }

    pub fn common(file: &[u8], answer: &mut [u64]) -> u32 {
        unsafe { declared::tipshare_common(file.as_ptr(), file.len() as u64, answer.as_mut_ptr(), answer.len() as u64) }
    }

    pub fn keep(file: &[u8], k: u16, out: &mut [u8], answer: &mut [u64]) -> u32 {
        unsafe {
            declared::tipshare_keep(
                file.as_ptr(),
                file.len() as u64,
                k,
                out.as_mut_ptr(),
                out.len() as u64,
                answer.as_mut_ptr(),
                answer.len() as u64,
            )
        }
    }

    pub fn goal(file: &[u8], goal: u32, out: &mut [u8], answer: &mut [u64]) -> u32 {
        unsafe {
            declared::tipshare_goal(
                file.as_ptr(),
                file.len() as u64,
                goal,
                out.as_mut_ptr(),
                out.len() as u64,
                answer.as_mut_ptr(),
                answer.len() as u64,
            )
        }
    }

    pub fn quick(file: &[u8], mounted: usize, plan: &mut [u8], answer: &mut [u64]) -> u32 {
        unsafe {
            declared::tipshare_quick(
                file.as_ptr(),
                file.len() as u64,
                of_tip(mounted),
                plan.as_mut_ptr(),
                plan.len() as u64,
                answer.as_mut_ptr(),
                answer.len() as u64,
            )
        }
    }

    pub fn best(file: &[u8], mounted: usize, plan: &mut [u8], table: &mut [u32], answer: &mut [u64]) -> u32 {
        unsafe {
            declared::tipshare_best(
                file.as_ptr(),
                file.len() as u64,
                of_tip(mounted),
                plan.as_mut_ptr(),
                plan.len() as u64,
                table.as_mut_ptr(),
                table.len() as u64,
                answer.as_mut_ptr(),
                answer.len() as u64,
            )
        }
    }

    pub fn along(file: &[u8], mounted: usize, plan: &mut [u8], answer: &mut [u64]) -> u32 {
        unsafe {
            declared::tipshare_along(
                file.as_ptr(),
                file.len() as u64,
                of_tip(mounted),
                plan.as_mut_ptr(),
                plan.len() as u64,
                answer.as_mut_ptr(),
                answer.len() as u64,
            )
        }
    }

    pub fn exact(
        file: &[u8],
        mounted: usize,
        price: u32,
        plan: &mut [u8],
        table: &mut [u32],
        answer: &mut [u64],
    ) -> u32 {
        unsafe {
            declared::tipshare_exact(
                file.as_ptr(),
                file.len() as u64,
                of_tip(mounted),
                price,
                plan.as_mut_ptr(),
                plan.len() as u64,
                table.as_mut_ptr(),
                table.len() as u64,
                answer.as_mut_ptr(),
                answer.len() as u64,
            )
        }
    }

    pub fn check(file: &[u8], plan: &[u8], claim: u32, table: &[u32], answer: &mut [u64]) -> u32 {
        unsafe {
            declared::tipshare_check(
                file.as_ptr(),
                file.len() as u64,
                plan.as_ptr(),
                plan.len() as u64,
                claim,
                table.as_ptr(),
                table.len() as u64,
                answer.as_mut_ptr(),
                answer.len() as u64,
            )
        }
    }

    pub fn junior(file: &[u8], plan: &mut [u8], answer: &mut [u64]) -> u32 {
        unsafe {
            declared::tipshare_junior(
                file.as_ptr(),
                file.len() as u64,
                plan.as_mut_ptr(),
                plan.len() as u64,
                answer.as_mut_ptr(),
                answer.len() as u64,
            )
        }
    }

    pub fn merge(first: &[u8], second: &[u8], out: &mut [u8], answer: &mut [u64]) -> u32 {
        unsafe {
            declared::tipshare_merge(
                first.as_ptr(),
                first.len() as u64,
                second.as_ptr(),
                second.len() as u64,
                out.as_mut_ptr(),
                out.len() as u64,
                answer.as_mut_ptr(),
                answer.len() as u64,
            )
        }
    }

    pub fn alone(first: &[u8], second: &[u8], plan: &mut [u8], answer: &mut [u64]) -> u32 {
        unsafe {
            declared::tipshare_alone(
                first.as_ptr(),
                first.len() as u64,
                second.as_ptr(),
                second.len() as u64,
                plan.as_mut_ptr(),
                plan.len() as u64,
                answer.as_mut_ptr(),
                answer.len() as u64,
            )
        }
    }

    pub fn mend(file: &[u8], out: &mut [u8], report: &mut [u8], answer: &mut [u64]) -> u32 {
        unsafe {
            declared::tipshare_mend(
                file.as_ptr(),
                file.len() as u64,
                out.as_mut_ptr(),
                out.len() as u64,
                report.as_mut_ptr(),
                report.len() as u64,
                answer.as_mut_ptr(),
                answer.len() as u64,
            )
        }
    }

    pub fn order(parts: &[u32], rules: &[u32], order: &mut [u8], answer: &mut [u64]) -> u32 {
        unsafe {
            declared::tipshare_order(
                parts.as_ptr(),
                parts.len() as u64,
                rules.as_ptr(),
                rules.len() as u64,
                order.as_mut_ptr(),
                order.len() as u64,
                answer.as_mut_ptr(),
                answer.len() as u64,
            )
        }
    }

    pub fn windows(parts: &[u32], rules: &[u32], first: &mut [u8], last: &mut [u8], answer: &mut [u64]) -> u32 {
        unsafe {
            declared::tipshare_windows(
                parts.as_ptr(),
                parts.len() as u64,
                rules.as_ptr(),
                rules.len() as u64,
                first.as_mut_ptr(),
                first.len() as u64,
                last.as_mut_ptr(),
                last.len() as u64,
                answer.as_mut_ptr(),
                answer.len() as u64,
            )
        }
    }

    pub fn order_by_tips(
        parts: &[u32],
        rules: &[u32],
        plan: &[u8],
        mounted: usize,
        order: &mut [u8],
        answer: &mut [u64],
    ) -> u32 {
        unsafe {
            declared::tipshare_order_by_tips(
                parts.as_ptr(),
                parts.len() as u64,
                rules.as_ptr(),
                rules.len() as u64,
                plan.as_ptr(),
                plan.len() as u64,
                of_tip(mounted),
                order.as_mut_ptr(),
                order.len() as u64,
                answer.as_mut_ptr(),
                answer.len() as u64,
            )
        }
    }

    pub fn report(file: &[u8], out: &mut [u8]) -> usize {
        unsafe {
            declared::tipshare_report(file.as_ptr(), file.len() as u64, out.as_mut_ptr(), out.len() as u64) as usize
        }
    }

    /// The mounted tip as the library takes it; none is all ones there, whatever the width of a usize here.
    fn of_tip(mounted: usize) -> u64 {
        if mounted == super::NO_TIP {
            u64::MAX
        } else {
            mounted as u64
        }
    }
}

/// The declarations of include/tipshare.h.
mod declared {
    /// A length or a tip: 64 bits on every processor, as the proved module has them.
    pub type Size = u64;

    extern "C" {
        pub fn tipshare_read(file: *const u8, file_len: Size, answer: *mut u64, answer_len: Size) -> u32;
        pub fn tipshare_common(file: *const u8, file_len: Size, answer: *mut u64, answer_len: Size) -> u32;
        pub fn tipshare_keep(
            file: *const u8,
            file_len: Size,
            k: u16,
            out: *mut u8,
            out_len: Size,
            answer: *mut u64,
            answer_len: Size,
        ) -> u32;
        pub fn tipshare_goal(
            file: *const u8,
            file_len: Size,
            goal: u32,
            out: *mut u8,
            out_len: Size,
            answer: *mut u64,
            answer_len: Size,
        ) -> u32;
        pub fn tipshare_quick(
            file: *const u8,
            file_len: Size,
            mounted: Size,
            plan: *mut u8,
            plan_len: Size,
            answer: *mut u64,
            answer_len: Size,
        ) -> u32;
        pub fn tipshare_best(
            file: *const u8,
            file_len: Size,
            mounted: Size,
            plan: *mut u8,
            plan_len: Size,
            table: *mut u32,
            table_len: Size,
            answer: *mut u64,
            answer_len: Size,
        ) -> u32;
        pub fn tipshare_along(
            file: *const u8,
            file_len: Size,
            mounted: Size,
            plan: *mut u8,
            plan_len: Size,
            answer: *mut u64,
            answer_len: Size,
        ) -> u32;
        pub fn tipshare_exact(
            file: *const u8,
            file_len: Size,
            mounted: Size,
            price: u32,
            plan: *mut u8,
            plan_len: Size,
            table: *mut u32,
            table_len: Size,
            answer: *mut u64,
            answer_len: Size,
        ) -> u32;
        pub fn tipshare_check(
            file: *const u8,
            file_len: Size,
            plan: *const u8,
            plan_len: Size,
            claim: u32,
            table: *const u32,
            table_len: Size,
            answer: *mut u64,
            answer_len: Size,
        ) -> u32;
        pub fn tipshare_junior(
            file: *const u8,
            file_len: Size,
            plan: *mut u8,
            plan_len: Size,
            answer: *mut u64,
            answer_len: Size,
        ) -> u32;
        pub fn tipshare_merge(
            first: *const u8,
            first_len: Size,
            second: *const u8,
            second_len: Size,
            out: *mut u8,
            out_len: Size,
            answer: *mut u64,
            answer_len: Size,
        ) -> u32;
        pub fn tipshare_alone(
            first: *const u8,
            first_len: Size,
            second: *const u8,
            second_len: Size,
            plan: *mut u8,
            plan_len: Size,
            answer: *mut u64,
            answer_len: Size,
        ) -> u32;
        pub fn tipshare_mend(
            file: *const u8,
            file_len: Size,
            out: *mut u8,
            out_len: Size,
            report: *mut u8,
            report_len: Size,
            answer: *mut u64,
            answer_len: Size,
        ) -> u32;
        pub fn tipshare_order(
            parts: *const u32,
            parts_len: Size,
            rules: *const u32,
            rules_len: Size,
            order: *mut u8,
            order_len: Size,
            answer: *mut u64,
            answer_len: Size,
        ) -> u32;
        pub fn tipshare_windows(
            parts: *const u32,
            parts_len: Size,
            rules: *const u32,
            rules_len: Size,
            first: *mut u8,
            first_len: Size,
            last: *mut u8,
            last_len: Size,
            answer: *mut u64,
            answer_len: Size,
        ) -> u32;
        pub fn tipshare_order_by_tips(
            parts: *const u32,
            parts_len: Size,
            rules: *const u32,
            rules_len: Size,
            plan: *const u8,
            plan_len: Size,
            mounted: Size,
            order: *mut u8,
            order_len: Size,
            answer: *mut u64,
            answer_len: Size,
        ) -> u32;
        pub fn tipshare_report(file: *const u8, file_len: Size, out: *mut u8, out_len: Size) -> Size;
    }
}
