//! Columns, the clamp and the letter, as docs/FONTS.md and docs/EDITING.md have them.
//!
//! The original counts 8 columns for every label `<U+..>`, also for those of 9 and 10. So where a draft holds such a character
//! its offsets, its letters and its cursor mean nothing, and these plain statements of the rule are taken in their place. For all
//! other drafts the original's word is taken, and these are only held against it.

use unicode_width::UnicodeWidthChar;

/// The columns kept free on either side of the cursor.
const MARGIN: usize = 5;

/// The columns that the original counts for a label `<U+..>`.
const COUNTED_FOR_LABEL: usize = 8;

/// The length of the label that a character without a width is shown as.
fn label_columns(c: char) -> usize {
    match c as u32 {
        0x00..=0x1F | 0x7F => 4,
        0x10000..=0xFFFFF => 9,
        0x100000.. => 10,
        _ => 8,
    }
}

pub fn columns(c: char) -> usize {
    c.width().unwrap_or_else(|| label_columns(c))
}

pub fn has_label(c: char) -> bool {
    c.width().is_none()
}

/// Whether the original counts too few columns for this character.
pub fn is_miscounted(c: char) -> bool {
    c as u32 >= 0x10000 && has_label(c) && label_columns(c) > COUNTED_FOR_LABEL
}

pub fn measured(text: &[char]) -> usize {
    text.iter().map(|&c| columns(c)).sum()
}

/// The offset after the clamp, with so many columns for the text.
pub fn clamped(text: &[char], place: usize, offset: usize, room: usize) -> usize {
    let mut offset = offset.min(place);
    let mut shown = measured(&text[offset..place]);
    while shown < MARGIN && offset > 0 {
        offset -= 1;
        shown += columns(text[offset]);
    }
    while shown > room - MARGIN && offset < place {
        shown -= columns(text[offset]);
        offset += 1;
    }
    offset
}

/// Whether a character just typed before the place can be written alone.
pub fn is_letter(text: &[char], place: usize, offset: usize, room: usize) -> bool {
    place == text.len() && !has_label(text[place - 1]) && measured(&text[offset..place]) < room - MARGIN
}
