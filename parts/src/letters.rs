//! Characters that nobody sees, and names as they can be printed.

use std::ffi::OsStr;

/// Whether a character is invisible, or turns the direction of the text behind it. Two names that differ in it alone look
/// the same.
pub fn is_invisible(c: char) -> bool {
    matches!(
        c,
        '\u{AD}' | '\u{34F}' | '\u{61C}' | '\u{115F}'..='\u{1160}' | '\u{17B4}'..='\u{17B5}' | '\u{180B}'..='\u{180F}'
            | '\u{200B}'..='\u{200F}' | '\u{2028}'..='\u{202E}' | '\u{2060}'..='\u{206F}' | '\u{2800}' | '\u{3164}'
            | '\u{FE00}'..='\u{FE0F}' | '\u{FEFF}' | '\u{FFA0}' | '\u{FFF0}'..='\u{FFFB}' | '\u{E0000}'..='\u{E0FFF}'
    )
}

/// A name as it is printed: control characters and invisible ones by their numbers, as `\u{1b}`.
pub fn shown(name: impl AsRef<OsStr>) -> String {
    let mut text = String::new();
    for c in name.as_ref().to_string_lossy().chars() {
        if c.is_control() || is_invisible(c) {
            text.extend(c.escape_unicode());
        } else {
            text.push(c);
        }
    }
    text
}

#[cfg(test)]
mod tests {
    use super::{is_invisible, shown};

    #[test]
    fn what_nobody_sees_is_shown_by_its_number() {
        assert_eq!(shown("board é Ω.txt"), "board é Ω.txt");
        assert_eq!(shown("a\u{1b}[2Jb\nc"), "a\\u{1b}[2Jb\\u{a}c");
        assert_eq!(shown("gpj\u{202e}.job"), "gpj\\u{202e}.job");
    }

    #[test]
    fn letters_signs_and_spaces_are_seen() {
        for c in ['a', 'Ω', 'µ', '°', '±', '"', ' ', '\u{A0}', '漢', 'ب'] {
            assert!(!is_invisible(c), "{c:?}");
        }
        for c in
            ['\u{200B}', '\u{200F}', '\u{202A}', '\u{202E}', '\u{2066}', '\u{2069}', '\u{FEFF}', '\u{AD}', '\u{3164}']
        {
            assert!(is_invisible(c), "{c:?}");
        }
    }
}
