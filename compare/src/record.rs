//! Calls written to a file, each with all that is lent to it and what the second implementation makes of that, to be made
//! again on another machine: `targets/replay.c` and `targets/replay.mjs` read the file.
//!
//! The file is the 8 bytes `TIPCALLS`, the calls, and then a byte 255 and the number of calls (64 bits). A call is
//! - its function (8 bits): the place of its name in [`CALL_NAMES`], behind them the places of the calls on parts and rules, in the order of
//!   [`orders::CALL_NAMES`];
//! - the numbers among its arguments (64 bits each): `k`, `goal`, `mounted` or `claim`, else 0; and `price`, else 0;
//! - the number that it must return (64 bits);
//! - its buffers, in the order of the parameters.
//!
//! A buffer is the bytes of a cell (8 bits), its cells, the first lent cell and the number of lent cells (32 bits each),
//! the bytes of all cells before the call, and what the call must change: the number of stretches (32 bits), and of each the
//! first byte and the number of bytes (32 bits each) and the bytes afterwards. All numbers are little-endian. Calls with large
//! tables are left out, so that the file stays small.

use std::collections::BTreeSet;
use std::fs::File;
use std::io::{self, BufWriter, Write};
use std::path::Path;

use crate::check::{Buffers, Call, Lent, CALL_NAMES};
use crate::orders;

const MARK: &[u8] = b"TIPCALLS";
const END: u8 = 255;
/// The first function on parts and rules, behind those on job files.
const ON_PARTS: usize = CALL_NAMES.len();

/// The most places of a table that is recorded.
const MOST_PLACES: usize = 1 << 14;

/// A cell of a buffer, as bytes.
trait Cell: Copy {
    const BYTES: u8;
    fn put(self, to: &mut Vec<u8>);
}

macro_rules! cell {
    ($number:ty) => {
        impl Cell for $number {
            const BYTES: u8 = (<$number>::BITS / 8) as u8;
            fn put(self, to: &mut Vec<u8>) {
                to.extend(self.to_le_bytes());
            }
        }
    };
}
cell!(u8);
cell!(u32);
cell!(u64);

/// A record of some of the calls that a comparison makes.
pub struct Record {
    to: BufWriter<File>,
    /// The calls that are expected in all, and how many of them are to be recorded, spread evenly.
    calls: u64,
    wanted: u64,
    /// The calls offered so far, and those written.
    offered: u64,
    written: u64,
    /// Functions and numbers that have occurred: the first call of each kind is recorded always.
    seen: BTreeSet<(u8, u32)>,
}

impl Record {
    pub fn new(file: &Path, calls: u64, wanted: u64) -> io::Result<Record> {
        let mut to = BufWriter::new(File::create(file)?);
        to.write_all(MARK)?;
        Ok(Record { to, calls, wanted, offered: 0, written: 0, seen: BTreeSet::new() })
    }

    /// Whether the next call is recorded, which is of this function and gives this number.
    fn takes(&mut self, function: u8, number: u32) -> bool {
        let is_first = self.seen.insert((function, number));
        let due = |offered: u64| offered * self.wanted / self.calls;
        let is_due = due(self.offered + 1) > due(self.offered);
        self.offered += 1;
        is_first || is_due
    }

    /// A call on a job file: the number that it is counted under, what it must return, and its buffers before and after.
    pub fn call(
        &mut self,
        call: &Call,
        number: u32,
        returned: u64,
        before: &Buffers,
        after: &Buffers,
    ) -> io::Result<()> {
        let function = call.column() as u8;
        if before.table.length > MOST_PLACES || !self.takes(function, number) {
            return Ok(());
        }
        let mut bytes = head(function, arguments(call), returned);
        put(&mut bytes, &before.file, &after.file);
        match call {
            Call::Read { .. } | Call::Common { .. } => {}
            Call::Merge { .. } | Call::Alone { .. } => {
                put(&mut bytes, &before.other, &after.other);
                put(&mut bytes, &before.bytes, &after.bytes);
            }
            Call::Mend { .. } => {
                put(&mut bytes, &before.bytes, &after.bytes);
                put(&mut bytes, &before.other, &after.other);
            }
            Call::Best { .. } | Call::Exact { .. } | Call::Check { .. } => {
                put(&mut bytes, &before.bytes, &after.bytes);
                put(&mut bytes, &before.table, &after.table);
            }
            Call::Keep { .. } | Call::Goal { .. } | Call::Report { .. } => put(&mut bytes, &before.bytes, &after.bytes),
            Call::Quick { .. } | Call::Along { .. } | Call::Junior { .. } => {
                put(&mut bytes, &before.bytes, &after.bytes);
            }
        }
        if !matches!(call, Call::Report { .. }) {
            put(&mut bytes, &before.answer, &after.answer);
        }
        self.write(&bytes)
    }

    /// A call on parts and rules: what it must return, and its buffers before and after.
    pub fn order(
        &mut self,
        call: orders::Call,
        returned: u32,
        before: &orders::Buffers,
        after: &orders::Buffers,
    ) -> io::Result<()> {
        let function = (ON_PARTS + call.column()) as u8;
        if !self.takes(function, returned) {
            return Ok(());
        }
        let argument = match call {
            orders::Call::ByTips { mounted, .. } => mounted as u64,
            _ => 0,
        };
        let mut bytes = head(function, [argument, 0], returned.into());
        put(&mut bytes, &before.parts, &after.parts);
        put(&mut bytes, &before.rules, &after.rules);
        match call {
            orders::Call::Order { .. } => put(&mut bytes, &before.order, &after.order),
            orders::Call::Windows { .. } => {
                put(&mut bytes, &before.first, &after.first);
                put(&mut bytes, &before.last, &after.last);
            }
            orders::Call::ByTips { .. } => {
                put(&mut bytes, &before.plan, &after.plan);
                put(&mut bytes, &before.order, &after.order);
            }
        }
        put(&mut bytes, &before.answer, &after.answer);
        self.write(&bytes)
    }

    fn write(&mut self, call: &[u8]) -> io::Result<()> {
        self.written += 1;
        self.to.write_all(call)
    }

    /// Ends the file: how many calls it has.
    pub fn end(mut self) -> io::Result<u64> {
        self.to.write_all(&[END])?;
        self.to.write_all(&self.written.to_le_bytes())?;
        self.to.flush()?;
        Ok(self.written)
    }
}

/// The numbers among the arguments of a call.
fn arguments(call: &Call) -> [u64; 2] {
    let first = match *call {
        Call::Exact { mounted, price, .. } => return [mounted as u64, price.into()],
        Call::Keep { k, .. } => k.into(),
        Call::Goal { goal, .. } => goal.into(),
        Call::Quick { mounted, .. } | Call::Best { mounted, .. } | Call::Along { mounted, .. } => mounted as u64,
        Call::Check { claim, .. } => claim.into(),
        _ => 0,
    };
    [first, 0]
}

fn head(function: u8, arguments: [u64; 2], returned: u64) -> Vec<u8> {
    let mut bytes = vec![function];
    arguments.iter().for_each(|argument| bytes.extend(argument.to_le_bytes()));
    bytes.extend(returned.to_le_bytes());
    bytes
}

/// Puts a buffer: its cells before the call, and the stretches that differ afterwards.
fn put<T: Cell>(to: &mut Vec<u8>, before: &Lent<T>, after: &Lent<T>) {
    let put_number = |to: &mut Vec<u8>, number: usize| to.extend(u32::try_from(number).expect("32 bits").to_le_bytes());
    let [before_bytes, after_bytes] = [before, after].map(|lent| {
        let mut bytes = Vec::new();
        lent.cells.iter().for_each(|cell| cell.put(&mut bytes));
        bytes
    });
    to.push(T::BYTES);
    for number in [before.cells.len(), before.start, before.length] {
        put_number(to, number);
    }
    to.extend(&before_bytes);
    let stretches = stretches(&before_bytes, &after_bytes);
    put_number(to, stretches.len());
    for (first, end) in stretches {
        put_number(to, first);
        put_number(to, end - first);
        to.extend(&after_bytes[first..end]);
    }
}

/// From where to where two rows of bytes differ. Stretches with fewer than 8 equal bytes between them are one.
fn stretches(before: &[u8], after: &[u8]) -> Vec<(usize, usize)> {
    let mut found: Vec<(usize, usize)> = Vec::new();
    for place in (0..before.len()).filter(|&place| before[place] != after[place]) {
        match found.last_mut() {
            Some((_, end)) if place < *end + 8 => *end = place + 1,
            _ => found.push((place, place + 1)),
        }
    }
    found
}

#[cfg(test)]
mod tests {
    use super::stretches;

    #[test]
    fn near_stretches_are_one() {
        let before = [0; 30];
        let mut after = before;
        assert_eq!(stretches(&before, &after), []);
        (after[2], after[9], after[18], after[29]) = (1, 1, 1, 1);
        assert_eq!(stretches(&before, &after), [(2, 10), (18, 19), (29, 30)]);
    }
}
