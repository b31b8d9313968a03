//! How wide a text is at most in the fonts of a plain system. Pictures leave
//! so much room for it, whichever font is there.

/// Widths of the characters from blank to `~` in hundredths of the font's size:
/// the widest of DejaVu Sans, Liberation Sans (Arial) and Liberation Serif.
const PLAIN: [u8; 95] = [
    32, 41, 46, 84, 64, 96, 78, 28, 40, 40, 50, 84, 32, 37, 32, 34, 64, 64, 64, 64, 64, 64, 64, 64,
    64, 64, 34, 34, 84, 84, 84, 56, 102, 73, 69, 73, 78, 67, 62, 78, 76, 34, 50, 73, 62, 89, 75,
    79, 67, 79, 73, 67, 62, 74, 73, 99, 73, 73, 69, 40, 34, 40, 84, 56, 50, 62, 64, 55, 64, 62, 36,
    64, 64, 28, 28, 58, 28, 98, 64, 62, 64, 64, 42, 53, 40, 64, 60, 82, 60, 60, 53, 64, 34, 64, 84,
];

/// The same of the bold fonts.
const BOLD: [u8; 95] = [
    35, 46, 56, 84, 70, 101, 88, 31, 46, 46, 53, 84, 38, 42, 38, 37, 70, 70, 70, 70, 70, 70, 70,
    70, 70, 70, 40, 40, 84, 84, 84, 62, 100, 78, 77, 74, 84, 69, 69, 83, 84, 39, 56, 78, 67, 100,
    84, 86, 74, 86, 78, 73, 71, 82, 78, 111, 78, 73, 73, 46, 37, 46, 84, 56, 50, 68, 72, 60, 72,
    68, 44, 72, 72, 35, 35, 67, 35, 105, 72, 69, 72, 72, 50, 60, 48, 72, 66, 93, 65, 66, 59, 72,
    37, 72, 84,
];

/// Any character that is not in a table, but for the letters below.
const WIDE: i32 = 150;

/// Latin letters with accents, and others of their width.
const LETTER: i32 = 110;

/// At most so many pixels wide in a font of this size.
#[must_use]
pub fn of(text: &str, size: i32, bold: bool) -> i32 {
    let table = if bold { &BOLD } else { &PLAIN };
    let width = |c: char| match u32::from(c) {
        code @ 32..=126 => i32::from(table[code as usize - 32]),
        0xc0..=0xff | 0x100..=0x131 | 0x134..=0x14f | 0x154..=0x17f => LETTER,
        _ => WIDE,
    };
    let sum: i32 = text.chars().map(width).sum();
    (sum * size + 99) / 100
}

/// The text, or its start with dots where it has more characters than that.
#[must_use]
pub fn shorten(text: &str, most: usize) -> String {
    if text.chars().count() <= most {
        return text.to_string();
    }
    let start: String = text.chars().take(most.saturating_sub(3)).collect();
    format!("{}...", start.trim_end())
}

#[cfg(test)]
mod tests {
    use super::*;

    #[test]
    fn widths_add_up() {
        assert_eq!(of("", 12, false), 0);
        assert_eq!(of("ab", 100, false), 126);
        assert_eq!(of("ab", 100, true), 140);
        assert_eq!(of("é中", 10, false), 26);
        assert!(of("a link", 12, true) > of("a link", 12, false));
    }

    #[test]
    fn long_texts_are_shortened() {
        assert_eq!(shorten("short", 5), "short");
        assert_eq!(shorten("longer word", 9), "longer...");
    }
}
