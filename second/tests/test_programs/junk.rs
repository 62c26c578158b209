//! Lent buffers full of junk, and what a call left in them.

/// What buffers are filled with: no tip, and no byte of the files written here.
pub const JUNK: u8 = 0xAA;

/// Eight bytes more than a plan of 512 lines.
pub const PLAN: usize = 520;

/// Eight bytes more than the plans of two boards of 512 lines.
pub const TWO_PLANS: usize = 1032;

/// Four places more than the table of a rack of 64 tips.
pub const TABLE: usize = 4100;

/// Eight bytes more than the job file of 512 lines with quantities.
pub const FILE: usize = 4624;

/// Eight bytes more than an order of 128 parts.
pub const ORDER: usize = 136;

/// A place of a table whose bytes are all this one.
pub fn place(byte: u8) -> u32 {
    u32::from_ne_bytes([byte; 4])
}

/// How many values of a list are shown one by one.
const SHOWN: usize = 32;
/// A set with one tip more or less has another remainder.
const PRIME: u64 = 1_000_003;

/// Each value as often as there are values from it on, so that their order counts.
fn sum_by_place(values: impl DoubleEndedIterator<Item = u64>) -> u64 {
    values.rev().zip(1..).map(|(value, weight)| value % PRIME * weight).sum()
}

/// The values among the first that are not blank; how many there are in all, and behind those that are written; the sum
/// of all.
pub fn show_list<T: Copy + PartialEq + Into<u64>>(list: &[T], blank: T, written: usize) -> String {
    let changed = |from: usize| list.iter().skip(from).filter(|&&value| value != blank).count();
    if changed(0) == 0 {
        return " changed 0".to_string();
    }
    let first = list.iter().take(SHOWN).filter(|&&value| value != blank);
    let values: String = first.map(|&value| format!(" {}", value.into())).collect();
    let sum = sum_by_place(list.iter().map(|&value| value.into()));
    format!("{values} changed {} behind {} sum {sum}", changed(0), changed(written))
}
