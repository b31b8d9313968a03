//! Records of bytes: a length in bytes, a kind, and fields, each of 16 bits with
//! its lower byte first. Plans and journals are runs of them.

/// The bytes of a record's length and kind.
pub const HEADER: usize = 4;

/// Appends a record of these fields.
pub fn put(out: &mut Vec<u8>, kind: u16, fields: &[u16]) {
    let length = (HEADER + 2 * fields.len()) as u16;
    for number in [length, kind].iter().chain(fields) {
        out.extend(number.to_le_bytes());
    }
}

/// The two fields of a day, its low word first.
pub fn words_of(day: i32) -> [u16; 2] {
    [day as u16, (day >> 16) as u16]
}

/// The day of two fields.
pub fn day_of(low: u16, high: u16) -> i32 {
    (u32::from(high) << 16 | u32::from(low)) as i32
}

/// A record as it stands in a file.
#[derive(Clone, Debug, PartialEq, Eq)]
pub struct Record {
    pub kind: u16,
    pub fields: Vec<u16>,
}

/// The record at the front of these bytes, with what its header says of it;
/// `None` where fewer bytes are left than a header has.
pub fn header(bytes: &[u8]) -> Option<(usize, u16)> {
    match *bytes {
        [a, b, c, d, ..] => Some((
            usize::from(u16::from_le_bytes([a, b])),
            u16::from_le_bytes([c, d]),
        )),
        _ => None,
    }
}

/// The whole record at the front of these bytes, if its length fits.
pub fn take(bytes: &[u8]) -> Option<(Record, &[u8])> {
    let (length, kind) = header(bytes)?;
    if length < HEADER || length % 2 == 1 || length > bytes.len() {
        return None;
    }
    let (record, rest) = bytes.split_at(length);
    let fields = record[HEADER..].chunks_exact(2);
    let fields = fields.map(|two| u16::from_le_bytes([two[0], two[1]]));
    let fields = fields.collect();
    Some((Record { kind, fields }, rest))
}
