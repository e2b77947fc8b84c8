//! Characters of every kind, and texts of them.

use unicode_width::{FOYER_TWO, FOYER_ZERO};

use super::random::Random;

const WHITE_SPACE: [u32; 12] = [0x20, 0x20, 0x20, 0x09, 0x0A, 0x0D, 0x85, 0xA0, 0x1680, 0x2003, 0x2028, 0x3000];
const WIDE: [u32; 6] = [0x1100, 0x5EA7, 0xAC00, 0xFF01, 0x1F300, 0x20000];
const MARKS: [u32; 6] = [0x0300, 0x0301, 0x0489, 0x200B, 0xFE0F, 0xFEFF];
const SHORT_LABELS: [u32; 6] = [0x00, 0x07, 0x0B, 0x1B, 0x1F, 0x7F];
/// In both fonts, and in the counter font only.
const MIDDLE_LABELS: [u32; 7] = [0x80, 0x85, 0x9F, 0x100, 0x4E00, 0xE000, 0xFFFF];
const LONG_LABELS: [u32; 6] = [0x10000, 0x1F300, 0x3FFFE, 0xFFFFF, 0x100000, 0x10FFFF];
/// What history and the jump look at.
const SIGNS: [u32; 9] = [0x5C, 0x78, 0x2B, 0x2D, 0x25, 0x71, 0x30, 0x39, 0x41];
/// What is no scalar value.
pub const NO_SCALARS: [u32; 6] = [0xD800, 0xDBFF, 0xDFFF, 0x110000, 0x7FFFFFFF, 0xFFFFFFFF];

/// The codes at the edges of both fonts' ranges, and of the labels' lengths, with their neighbours.
pub fn edges() -> Vec<u32> {
    let of_labels = [(0x00, 0x1F), (0x20, 0x7E), (0x7F, 0x9F), (0xA0, 0xFF), (0xE000, 0xFFFF), (0x10000, 0xFFFFF), (0x100000, 0x10FFFF)];
    let mut codes: Vec<u32> = of_labels
        .iter()
        .chain(&FOYER_ZERO)
        .chain(&FOYER_TWO)
        .flat_map(|&(first, last)| [first.saturating_sub(1), first, first + 1, last.saturating_sub(1), last, last + 1])
        .filter(|&code| char::from_u32(code).is_some())
        .collect();
    codes.sort_unstable();
    codes.dedup();
    codes
}

fn letter(random: &mut Random) -> u32 {
    random.between(0x61, 0x7A) as u32
}

fn any(random: &mut Random) -> u32 {
    let limit = random.pick(&[0x100, 0x3000, 0x10000, 0x110000]);
    char::from_u32(random.below(limit) as u32).map_or(0xFFFD, |c| c as u32)
}

/// What a text is mostly made of.
#[derive(Clone, Copy)]
pub enum Mix {
    Letters,
    Words,
    All,
    Labels,
    Wide,
}

pub const MIXES: [Mix; 5] = [Mix::Letters, Mix::Words, Mix::All, Mix::Labels, Mix::Wide];

pub fn character(random: &mut Random, mix: Mix) -> u32 {
    match mix {
        Mix::Letters => letter(random),
        Mix::Words => match random.below(10) {
            0..=5 => letter(random),
            6..=8 => random.pick(&WHITE_SPACE),
            _ => random.pick(&MARKS),
        },
        Mix::Labels => match random.below(8) {
            0 | 1 => letter(random),
            2 | 3 => random.pick(&SHORT_LABELS),
            4 | 5 => random.pick(&MIDDLE_LABELS),
            _ => random.pick(&LONG_LABELS),
        },
        Mix::Wide => match random.below(6) {
            0 => letter(random),
            1 => random.pick(&MARKS),
            _ => random.pick(&WIDE),
        },
        Mix::All => match random.below(12) {
            0..=2 => letter(random),
            3 => random.pick(&WHITE_SPACE),
            4 => random.pick(&WIDE),
            5 | 6 => random.pick(&MARKS),
            7 => random.pick(&SHORT_LABELS),
            8 => random.pick(&MIDDLE_LABELS),
            9 => random.pick(&LONG_LABELS),
            10 => random.pick(&SIGNS),
            _ => any(random),
        },
    }
}

pub fn text(random: &mut Random, mix: Mix, len: usize) -> String {
    (0..len).map(|_| char::from_u32(character(random, mix)).expect("only scalar values are picked")).collect()
}

/// Bytes that break off, overlong forms, surrogates, and more than there is.
const ILL_FORMED: [&[u8]; 12] = [
    &[0x80],
    &[0xFF],
    &[0xC0, 0x80],
    &[0xC1, 0xBF],
    &[0xC3],
    &[0xC3, 0x28],
    &[0xE0, 0x9F, 0xBF],
    &[0xE2, 0x82],
    &[0xED, 0xA0, 0x80],
    &[0xF0, 0x8F, 0xBF, 0xBF],
    &[0xF4, 0x90, 0x80, 0x80],
    &[0xF1, 0x80, 0x80],
];

/// Puts something ill formed in, at any place.
pub fn spoil(random: &mut Random, bytes: &mut Vec<u8>) {
    let at = random.below(bytes.len() + 1);
    let bad = random.pick(&ILL_FORMED);
    bytes.splice(at..at, bad.iter().copied());
}
