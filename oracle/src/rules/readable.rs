//! Which lines of history are readable.

use crate::prompt::PromptState;
use crate::rules::refusals::CAPACITY;

pub const LONGEST_LINE: usize = 1_024;
/// The lines that become drafts.
pub const MOST_DRAFTS: usize = 31;
/// The lines that are kept in writing.
pub const MOST_KEPT: usize = 30;

/// Why a line is passed over.
#[derive(Clone, Copy, Debug, PartialEq, Eq)]
pub enum Unreadable {
    Empty,
    IllFormed,
    Long,
}

/// A line of history: as it stands in the bytes, with what ends it, and without.
#[derive(Clone, Copy)]
pub struct Line<'a> {
    pub whole: &'a [u8],
    pub text: &'a [u8],
}

/// History is cut at 0A, and one 0D before it goes; the last line needs no 0A.
pub fn lines(history: &[u8]) -> impl Iterator<Item = Line<'_>> {
    history.split_inclusive(|&byte| byte == 0x0A).map(|whole| {
        let text = match whole {
            [text @ .., 0x0D, 0x0A] | [text @ .., 0x0A] => text,
            text => text,
        };
        Line { whole, text }
    })
}

/// The text of a readable line. The characters that it loads to are counted by the original's loader.
pub fn read(line: &[u8]) -> Result<&str, Unreadable> {
    if line.is_empty() {
        return Err(Unreadable::Empty);
    }
    let text = std::str::from_utf8(line).map_err(|_| Unreadable::IllFormed)?;
    if is_long(text) {
        return Err(Unreadable::Long);
    }
    Ok(text)
}

/// Whether a line has more bytes, or loads to more characters, than are read.
pub fn is_long(line: &str) -> bool {
    line.len() > LONGEST_LINE || (line.len() > CAPACITY && PromptState::load(line).oracle_parts().0.len() > CAPACITY)
}
