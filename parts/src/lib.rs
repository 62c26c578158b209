//! Parts lists as text, job files as bytes, and what the proved library says of them.

pub mod changes;
pub mod checking;
pub mod comparing;
pub mod exporting;
#[cfg(any(unix, windows))]
pub mod files;
pub mod goal;
pub mod handed;
pub mod import;
pub mod job;
pub mod json;
pub mod junior;
pub mod letters;
pub mod limits;
pub mod list;
pub mod mending;
pub mod no_order;
pub mod ordering;
pub mod page;
pub mod panel;
pub mod picture;
pub mod planning;
pub mod refusal;
pub mod renumbering;
pub mod table_fault;

pub use job_file::{MOST_LINES, MOST_PLACEMENTS, MOST_TIPS};
pub use library::MOST_PARTS;

/// The largest quantity of a part.
pub const MOST_QUANTITY: usize = u8::MAX as usize;

/// A set of tips as numbers and ranges, rising, as `0 2 4-6`; `none` for the empty set.
pub fn tips_in_words(set: u64) -> String {
    let has = |tip: usize| tip < MOST_TIPS && set >> tip & 1 == 1;
    let mut words = Vec::new();
    let mut tip = 0;
    while tip < MOST_TIPS {
        let first = tip;
        while has(tip) {
            tip += 1;
        }
        match tip - first {
            0 => tip += 1,
            1 => words.push(format!("{first}")),
            _ => words.push(format!("{first}-{}", tip - 1)),
        }
    }
    if words.is_empty() {
        words.push("none".into());
    }
    words.join(" ")
}

/// What stands behind a name for this quantity, as ` x10`; nothing for 1.
fn quantity_in_words(quantity: u8) -> String {
    match quantity {
        1 => String::new(),
        _ => format!(" x{quantity}"),
    }
}

/// A number of things, as `1 pair` or `2 pairs`.
fn counted(number: u64, thing: &str) -> String {
    let ending = if number == 1 { "" } else { "s" };
    format!("{number} {thing}{ending}")
}

#[cfg(test)]
mod tests {
    use super::tips_in_words;

    #[test]
    fn tips_are_numbers_and_ranges() {
        assert_eq!(tips_in_words(0), "none");
        assert_eq!(tips_in_words(0b1), "0");
        assert_eq!(tips_in_words(0b111_0101), "0 2 4-6");
        assert_eq!(tips_in_words(0b110), "1-2");
        assert_eq!(tips_in_words(1 << 63), "63");
        assert_eq!(tips_in_words(u64::MAX), "0-63");
        assert_eq!(tips_in_words(0b11 << 62 | 1), "0 62-63");
    }
}
