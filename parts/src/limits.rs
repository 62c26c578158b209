//! How large an input may be. Every file of a planner is far below; what is above would keep a command busy for minutes.

use crate::job::has_mark;

/// The most bytes of a file.
pub const MOST_BYTES: usize = 16 * 1024 * 1024;
/// The most lines of a text.
pub const MOST_LINES: usize = 100_000;
/// The most columns of a list, of a table of another program, and attributes of an element.
pub const MOST_COLUMNS: usize = 64;
/// The most placements of a file, those of ranges as R1-R4 too.
pub const MOST_PLACEMENTS: usize = 100_000;
/// The most elements of an XML file.
pub const MOST_ELEMENTS: usize = 500_000;

/// Why a file is too large to be read, and what to do.
pub fn too_large(bytes: &[u8]) -> Option<String> {
    if bytes.len() > MOST_BYTES {
        return Some(format!("more than {} MB; name another file, or split it", MOST_BYTES / 1024 / 1024));
    }
    // A job file has no lines of text.
    let lines = if has_mark(bytes) { 0 } else { bytes.iter().filter(|&&byte| byte == b'\n').count() };
    (lines > MOST_LINES).then(|| format!("{lines} lines; {MOST_LINES} is the most, split the file"))
}

#[cfg(test)]
mod tests {
    use super::*;

    #[test]
    fn bytes_and_lines_are_counted() {
        assert_eq!(too_large(&vec![b'#'; MOST_BYTES]), None);
        let why = "more than 16 MB; name another file, or split it";
        assert_eq!(too_large(&vec![b'#'; MOST_BYTES + 1]).as_deref(), Some(why));
        assert_eq!(too_large(&[b'\n'; MOST_LINES]), None);
        let why = "100001 lines; 100000 is the most, split the file";
        assert_eq!(too_large(&[b'\n'; MOST_LINES + 1]).as_deref(), Some(why));
        assert_eq!(too_large(&[&b"TIP"[..], &[b'\n'; MOST_LINES + 1]].concat()), None);
    }
}
