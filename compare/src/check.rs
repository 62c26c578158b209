//! One call made in both implementations on equal buffers, and compared whole.

use std::{fmt, io};

use library::on_slices;
use second::interface;

use crate::random::Random;
use crate::record::Record;

/// Junk before and after each buffer, so that a write outside it is seen.
const GUARD: usize = 32;

/// A call with the lengths of the buffers it is lent.
#[derive(Clone, Copy, PartialEq, Eq, Debug)]
pub enum Call {
    Read { answer: usize },
    Common { answer: usize },
    Keep { k: u16, out: usize, answer: usize },
    Goal { goal: u32, out: usize, answer: usize },
    Quick { mounted: usize, plan: usize, answer: usize },
    Best { mounted: usize, plan: usize, table: usize, answer: usize },
    Along { mounted: usize, plan: usize, answer: usize },
    Exact { mounted: usize, price: u32, plan: usize, table: usize, answer: usize },
    Check { claim: u32, plan: usize, table: usize, answer: usize },
    Junior { plan: usize, answer: usize },
    Merge { out: usize, answer: usize },
    Alone { plan: usize, answer: usize },
    Mend { out: usize, report: usize, answer: usize },
    Report { out: usize },
}

/// The names of the calls, in the order of their columns.
pub const CALL_NAMES: [&str; 14] = [
    "read", "common", "keep", "goal", "quick", "best", "along", "exact", "check", "junior", "merge", "alone", "mend",
    "report",
];

impl Call {
    /// Where the call stands among the names.
    pub fn column(&self) -> usize {
        match self {
            Call::Read { .. } => 0,
            Call::Common { .. } => 1,
            Call::Keep { .. } => 2,
            Call::Goal { .. } => 3,
            Call::Quick { .. } => 4,
            Call::Best { .. } => 5,
            Call::Along { .. } => 6,
            Call::Exact { .. } => 7,
            Call::Check { .. } => 8,
            Call::Junior { .. } => 9,
            Call::Merge { .. } => 10,
            Call::Alone { .. } => 11,
            Call::Mend { .. } => 12,
            Call::Report { .. } => 13,
        }
    }
}

/// A lent buffer with junk in it and around it, beginning at any address that fits its cells.
#[derive(Clone, PartialEq)]
pub struct Lent<T> {
    pub(crate) cells: Vec<T>,
    pub(crate) start: usize,
    pub(crate) length: usize,
}

impl<T: Copy> Lent<T> {
    /// A buffer with nothing around it.
    pub(crate) fn of(cells: Vec<T>) -> Lent<T> {
        let length = cells.len();
        Lent { cells, start: 0, length }
    }

    pub(crate) fn junk<const N: usize>(random: &mut Random, length: usize, cells: fn(u64) -> [T; N]) -> Lent<T> {
        let start = GUARD + random.below(16);
        let mut junk = Vec::with_capacity(start + length + GUARD + N);
        while junk.len() < start + length + GUARD {
            junk.extend(cells(random.number()));
        }
        Lent { cells: junk, start, length }
    }

    /// Puts these cells at the beginning of the lent part, as many as there is room for.
    pub(crate) fn begin_with(&mut self, cells: &[T]) {
        let number = cells.len().min(self.length);
        self.inside()[..number].copy_from_slice(&cells[..number]);
    }

    /// The lent part.
    pub(crate) fn inside(&mut self) -> &mut [T] {
        &mut self.cells[self.start..self.start + self.length]
    }

    fn copied(&self) -> Vec<T> {
        self.cells[self.start..self.start + self.length].to_vec()
    }
}

/// What stands in the plan and in the table before a call, as far as they are lent; behind it there is junk. And the file
/// of the second board, for a call on two.
#[derive(Clone, Copy, Default)]
pub struct Given<'a> {
    pub plan: &'a [u8],
    pub table: &'a [u32],
    pub other: &'a [u8],
}

/// Everything that one call can reach.
#[derive(Clone, PartialEq)]
pub struct Buffers {
    pub(crate) file: Lent<u8>,
    /// The plan or the output.
    pub(crate) bytes: Lent<u8>,
    pub(crate) table: Lent<u32>,
    pub(crate) answer: Lent<u64>,
    /// The file of the second board, or the report of a mending.
    pub(crate) other: Lent<u8>,
}

/// What makes a call on lent buffers, and gives the returned number or the length of a report.
pub type Caller = fn(&Call, &mut Buffers) -> u64;

impl Buffers {
    fn new(file: &[u8], call: &Call, given: Given, junk: u64) -> Buffers {
        let (bytes, table, answer) = match *call {
            Call::Read { answer } | Call::Common { answer } => (0, 0, answer),
            Call::Keep { out, answer, .. } | Call::Goal { out, answer, .. } => (out, 0, answer),
            Call::Quick { plan, answer, .. } | Call::Along { plan, answer, .. } => (plan, 0, answer),
            Call::Junior { plan, answer } => (plan, 0, answer),
            Call::Best { plan, table, answer, .. } | Call::Check { plan, table, answer, .. } => (plan, table, answer),
            Call::Exact { plan, table, answer, .. } => (plan, table, answer),
            Call::Merge { out, answer } => (out, 0, answer),
            Call::Alone { plan, answer } => (plan, 0, answer),
            Call::Mend { out, answer, .. } => (out, 0, answer),
            Call::Report { out } => (out, 0, 0),
        };
        let other = match *call {
            Call::Mend { report, .. } => report,
            _ => given.other.len(),
        };
        let mut random = Random::new(junk);
        let mut buffers = Buffers {
            file: Lent::junk(&mut random, file.len(), u64::to_le_bytes),
            bytes: Lent::junk(&mut random, bytes, u64::to_le_bytes),
            table: Lent::junk(&mut random, table, |number| [number as u32, (number >> 32) as u32]),
            answer: Lent::junk(&mut random, answer, |number| [number]),
            other: Lent::junk(&mut random, other, u64::to_le_bytes),
        };
        buffers.file.inside().copy_from_slice(file);
        buffers.other.begin_with(given.other);
        buffers.bytes.begin_with(given.plan);
        buffers.table.begin_with(given.table);
        buffers
    }
}

/// A call made by the functions of one module.
macro_rules! made_by {
    ($module:ident, $call:expr, $lent:expr) => {{
        let (file, bytes) = ($lent.file.inside(), $lent.bytes.inside());
        let (table, answer) = ($lent.table.inside(), $lent.answer.inside());
        let other = $lent.other.inside();
        match *$call {
            Call::Read { .. } => $module::read(file, answer).into(),
            Call::Common { .. } => $module::common(file, answer).into(),
            Call::Keep { k, .. } => $module::keep(file, k, bytes, answer).into(),
            Call::Goal { goal, .. } => $module::goal(file, goal, bytes, answer).into(),
            Call::Quick { mounted, .. } => $module::quick(file, mounted, bytes, answer).into(),
            Call::Best { mounted, .. } => $module::best(file, mounted, bytes, table, answer).into(),
            Call::Along { mounted, .. } => $module::along(file, mounted, bytes, answer).into(),
            Call::Exact { mounted, price, .. } => $module::exact(file, mounted, price, bytes, table, answer).into(),
            Call::Check { claim, .. } => $module::check(file, bytes, claim, table, answer).into(),
            Call::Junior { .. } => $module::junior(file, bytes, answer).into(),
            Call::Merge { .. } => $module::merge(file, other, bytes, answer).into(),
            Call::Alone { .. } => $module::alone(file, other, bytes, answer).into(),
            Call::Mend { .. } => $module::mend(file, bytes, other, answer).into(),
            Call::Report { .. } => $module::report(file, bytes) as u64,
        }
    }};
}

/// The call of the linked library.
pub fn call_library(call: &Call, lent: &mut Buffers) -> u64 {
    made_by!(on_slices, call, lent)
}

fn call_second(call: &Call, lent: &mut Buffers) -> u64 {
    made_by!(interface, call, lent)
}

/// What both implementations gave.
pub struct Outcome {
    /// The returned number, for a report its length.
    pub returned: u64,
    /// The bytes of the plan or output after the call.
    pub bytes: Vec<u8>,
    /// The table after the call.
    pub table: Vec<u32>,
    /// The answer after the call.
    pub answer: Vec<u64>,
}

/// A difference, with all that is needed to see it again.
pub struct Difference {
    pub file: Vec<u8>,
    /// The file of the second board, where there is one.
    pub other: Vec<u8>,
    pub what: String,
}

impl fmt::Display for Difference {
    fn fmt(&self, to: &mut fmt::Formatter) -> fmt::Result {
        writeln!(to, "DIFFERENCE: {}", self.what)?;
        write_file(to, "job file", &self.file)?;
        if self.other.is_empty() {
            return Ok(());
        }
        write_file(to, "second job file", &self.other)
    }
}

/// A file as hex digits.
fn write_file(to: &mut fmt::Formatter, name: &str, file: &[u8]) -> fmt::Result {
    writeln!(to, "{name}, {} bytes:", file.len())?;
    for row in file.chunks(32) {
        for byte in row {
            write!(to, "{byte:02x}")?;
        }
        writeln!(to)?;
    }
    Ok(())
}

/// One call on buffers of junk, as the second implementation makes it.
pub struct Expected<'a> {
    file: &'a [u8],
    call: &'a Call,
    given: Given<'a>,
    junk: u64,
    before: Buffers,
    after: Buffers,
    returned: u64,
}

impl<'a> Expected<'a> {
    pub fn of_call(file: &'a [u8], call: &'a Call, given: Given<'a>, junk: u64) -> Expected<'a> {
        let before = Buffers::new(file, call, given, junk);
        let mut after = before.clone();
        let returned = call_second(call, &mut after);
        Expected { file, call, given, junk, before, after, returned }
    }

    /// What the caller makes of the same buffers.
    fn made_by(&self, caller: Caller) -> (u64, Buffers) {
        let mut lent = self.before.clone();
        (caller(self.call, &mut lent), lent)
    }

    /// Puts the call on record under this number.
    pub fn record(&self, record: &mut Record, number: u32) -> io::Result<()> {
        record.call(self.call, number, self.returned, &self.before, &self.after)
    }

    fn is_met(&self, (returned, lent): &(u64, Buffers)) -> bool {
        *returned == self.returned && *lent == self.after
    }

    pub fn is_met_by(&self, caller: Caller) -> bool {
        self.is_met(&self.made_by(caller))
    }

    /// Makes the call in the library too.
    pub fn compare(&self) -> Result<Outcome, Difference> {
        let (second, of_second) = (self.returned, &self.after);
        let made = self.made_by(call_library);
        if self.is_met(&made) {
            let (bytes, table, answer) =
                (of_second.bytes.copied(), of_second.table.copied(), of_second.answer.copied());
            return Ok(Outcome { returned: second, bytes, table, answer });
        }
        let (library, of_library) = made;
        let mut what = format!("{:?}, junk {}\nreturned: library {library}, second {second}", self.call, self.junk);
        what += &first_difference("file", &of_library.file, &of_second.file);
        what += &first_difference("answer", &of_library.answer, &of_second.answer);
        what += &first_difference("plan or output", &of_library.bytes, &of_second.bytes);
        what += &first_difference("table", &of_library.table, &of_second.table);
        what += &first_difference("second file or report", &of_library.other, &of_second.other);
        if let Call::Check { .. } = self.call {
            what += &format!("\nplan handed over {:?}\ntable handed over {:?}", self.given.plan, self.given.table);
        }
        Err(Difference { file: self.file.to_vec(), other: self.given.other.to_vec(), what })
    }
}

/// The first place where two buffers differ; below 0 and past the length it lies outside the lent part.
pub(crate) fn first_difference<T: Copy + PartialEq + fmt::Display>(
    name: &str,
    library: &Lent<T>,
    second: &Lent<T>,
) -> String {
    let cells = library.cells.iter().zip(&second.cells);
    match cells.clone().position(|(library, second)| library != second) {
        None => String::new(),
        Some(cell) => {
            let place = cell as i64 - library.start as i64;
            let length = library.length;
            let number = cells.filter(|(library, second)| library != second).count();
            let (library, second) = (library.cells[cell], second.cells[cell]);
            format!("\n{name}: place {place} of {length}: library {library}, second {second}; {number} places differ")
        }
    }
}
