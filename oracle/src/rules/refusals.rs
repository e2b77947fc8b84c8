//! When a call is refused, in the order of the table in docs/REFUSALS.md. The original refuses nothing but numbers.

use crate::script::call::{Key, KeyName, Open};
use crate::script::reply::Refusal;

pub const LONGEST_LABEL: usize = 32;
pub const LONGEST_HISTORY: usize = 65_536;
pub const WIDEST: usize = 512;
/// The columns that a row needs beside the label.
pub const BESIDE_LABEL: usize = 9;
/// What a glass must have to spare for a drawing.
pub const LEAST_SPARE: usize = 1_300;
/// The characters of a draft, at most.
pub const CAPACITY: usize = 256;
/// The bytes of the version and the first reshape.
pub const FIRST_RECORD: usize = 6;
/// The lines of a listing, at most.
pub const LONGEST_LISTING: u64 = 1 << 32;
/// The bytes that are lent to a recorder or to history writing, at most.
pub const MOST_LENT: usize = 65_536;

pub const BAD_LABEL: Refusal = Refusal::of(11);
pub const HISTORY_TOO_LONG: Refusal = Refusal::of(12);
pub const OUTSIDE_GLASS: Refusal = Refusal::of(13);
pub const LOW_SPARE: Refusal = Refusal::of(14);
pub const NOT_SCALAR: Refusal = Refusal::of(15);
pub const DRAFT_FULL: Refusal = Refusal::of(17);
pub const BUFFER_TOO_SHORT: Refusal = Refusal::of(18);
pub const LISTING_TOO_LONG: Refusal = Refusal::of(19);
pub const NO_LINES: Refusal = Refusal::of(24);

/// How much of what a caller offers is lent.
pub fn lent(room: u32) -> usize {
    (room as usize).min(MOST_LENT)
}

/// The prompt is asked first, then whether a recorder can be made.
pub fn open(open: &Open) -> Result<(), Refusal> {
    let is_printable = open.label.iter().all(|byte| (0x20..=0x7E).contains(byte));
    if open.label.is_empty() || open.label.len() > LONGEST_LABEL || !is_printable {
        return Err(BAD_LABEL);
    }
    if open.history.len() > LONGEST_HISTORY {
        return Err(HISTORY_TOO_LONG);
    }
    if !(1..=WIDEST).contains(&(open.width as usize)) {
        return Err(OUTSIDE_GLASS);
    }
    if lent(open.room) < FIRST_RECORD {
        return Err(BUFFER_TOO_SHORT);
    }
    Ok(())
}

/// Whether the label and a drawing fit: asked by draw, key and paste of the width there is, by resize of the new one.
pub fn drawing(label_len: usize, width: usize, spare: usize) -> Result<(), Refusal> {
    if !(label_len + BESIDE_LABEL..=WIDEST).contains(&width) {
        return Err(OUTSIDE_GLASS);
    }
    if spare < LEAST_SPARE {
        return Err(LOW_SPARE);
    }
    Ok(())
}

/// The character that a key carries, if it is a character key. It is asked for whatever is held with it.
pub fn character(key: &Key) -> Result<Option<char>, Refusal> {
    match key.name {
        KeyName::Char => char::from_u32(key.code).map(Some).ok_or(NOT_SCALAR),
        _ => Ok(None),
    }
}

pub fn pasted(bytes: &[u8]) -> Result<&str, Refusal> {
    std::str::from_utf8(bytes).map_err(|fault| Refusal { number: 16, place: fault.valid_up_to() as u32 })
}

/// Whether a draft has room for so many more.
pub fn insertion(draft_len: usize, added: usize) -> Result<(), Refusal> {
    if draft_len + added > CAPACITY {
        return Err(DRAFT_FULL);
    }
    Ok(())
}
