//! Records, as plans and journals lay them out: 16-bit length (itself
//! included), 16-bit kind, then 16-bit fields, little-endian.

/// Bytes of length and kind.
pub const HEADER: usize = 4;

/// The length and kind at the start of a record.
#[derive(Clone, Copy, Debug, PartialEq, Eq)]
pub struct Header {
    pub length: u16,
    pub kind: u16,
}

impl Header {
    /// The header at the front of `bytes`; `None` if fewer than 4 remain.
    pub fn read(bytes: &[u8]) -> Option<Header> {
        if bytes.len() < HEADER {
            return None;
        }
        Some(Header {
            length: word(bytes, 0),
            kind: word(bytes, 2),
        })
    }
}

/// The little-endian word at byte `at`.
fn word(bytes: &[u8], at: usize) -> u16 {
    u16::from_le_bytes([bytes[at], bytes[at + 1]])
}

/// Field `n` (from 0) of the whole record at the front of `bytes`.
pub fn field(bytes: &[u8], n: usize) -> u16 {
    word(bytes, HEADER + 2 * n)
}

/// The signed 32-bit number in fields `n` and `n + 1`, low word first.
pub fn signed(bytes: &[u8], n: usize) -> i32 {
    of_words([field(bytes, n), field(bytes, n + 1)])
}

/// A signed 32-bit number as two words, low word first.
pub fn words_of(number: i32) -> [u16; 2] {
    [number as u16, (number >> 16) as u16]
}

/// The signed 32-bit number of two words, low word first.
pub fn of_words([low, high]: [u16; 2]) -> i32 {
    (u32::from(high) << 16 | u32::from(low)) as i32
}

/// At most eight bytes as one little-endian number.
fn number(bytes: &[u8]) -> u64 {
    let bytes = bytes.iter().rev();
    bytes.fold(0, |number, &byte| (number << 8) | u64::from(byte))
}

/// The sum modulo 65,536 of the bytes taken as little-endian 16-bit numbers.
/// Each round reads eight bytes as one number and counts its four 16-bit parts.
/// The last 2, 4 or 6 bytes are counted apart, two by two; a last single byte
/// counts as itself.
pub fn sum(bytes: &[u8]) -> u16 {
    let rounds = bytes.chunks_exact(8);
    let last = rounds.remainder().chunks(2).map(number);
    let shifted = |round: u64| [round, round >> 16, round >> 32, round >> 48];
    let parts = rounds.map(number).flat_map(shifted).chain(last);
    // Of each part the low 16 bits.
    parts.fold(0, |sum, part| sum.wrapping_add(part as u16))
}

/// Appends one record.
pub fn put(out: &mut Vec<u8>, kind: u16, fields: &[u16]) {
    let length = (HEADER + 2 * fields.len()) as u16;
    put_words(out, &[length, kind]);
    put_words(out, fields);
}

/// Appends words, little-endian.
pub fn put_words(out: &mut Vec<u8>, words: &[u16]) {
    for word in words {
        out.extend_from_slice(&word.to_le_bytes());
    }
}
