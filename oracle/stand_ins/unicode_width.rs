//! The two fonts in the place of unicode-width. Which of them is asked is chosen for the thread, since the prompt asks a
//! character for its width and knows of no font. The tables are those of docs/FONTS.md.

use std::cell::Cell;

#[derive(Clone, Copy, Debug, PartialEq, Eq)]
pub enum Font {
    Foyer,
    Counter,
}

/// The characters of 0 columns in the foyer font, in rising order.
pub const FOYER_ZERO: [(u32, u32); 6] = [
    (0x0300, 0x036F),
    (0x0483, 0x0489),
    (0x200B, 0x200F),
    (0x20D0, 0x20F0),
    (0xFE00, 0xFE0F),
    (0xFEFF, 0xFEFF),
];

/// The characters of 2 columns in the foyer font, in rising order.
pub const FOYER_TWO: [(u32, u32); 11] = [
    (0x1100, 0x115F),
    (0x2E80, 0x303E),
    (0x3041, 0x4DBF),
    (0x4E00, 0xA4CF),
    (0xAC00, 0xD7A3),
    (0xF900, 0xFAFF),
    (0xFE30, 0xFE6F),
    (0xFF01, 0xFF60),
    (0xFFE0, 0xFFE6),
    (0x1F300, 0x1F64F),
    (0x20000, 0x3FFFD),
];

thread_local! {
    static FONT: Cell<Font> = const { Cell::new(Font::Foyer) };
}

/// From here on the characters of this thread are measured with this font.
pub fn set_font(font: Font) {
    FONT.with(|chosen| chosen.set(font));
}

fn within(ranges: &[(u32, u32)], code: u32) -> bool {
    ranges.iter().any(|&(first, last)| first <= code && code <= last)
}

fn foyer(code: u32) -> Option<usize> {
    match code {
        0x20..=0x7E => Some(1),
        0x00..=0x1F | 0x7F..=0x9F => None,
        _ if within(&FOYER_ZERO, code) => Some(0),
        _ if within(&FOYER_TWO, code) => Some(2),
        _ => Some(1),
    }
}

fn counter(code: u32) -> Option<usize> {
    match code {
        0x20..=0x7E | 0xA0..=0xFF => Some(1),
        _ => None,
    }
}

pub trait UnicodeWidthChar {
    fn width(self) -> Option<usize>;
}

impl UnicodeWidthChar for char {
    fn width(self) -> Option<usize> {
        match FONT.with(Cell::get) {
            Font::Foyer => foyer(self as u32),
            Font::Counter => counter(self as u32),
        }
    }
}

pub trait UnicodeWidthStr {
    fn width(&self) -> usize;
}

/// The prompt measures only its label and the labels of characters as texts, and all of these are of 20 to 7E.
impl UnicodeWidthStr for str {
    fn width(&self) -> usize {
        self.chars().map(|c| c.width().unwrap_or(0)).sum()
    }
}
