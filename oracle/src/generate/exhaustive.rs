//! Every list of a few keys, at the narrowest widths, where the draft scrolls from the first letter on.

use super::{keys, open, Script, FONTS};
use crate::script::call::{Call, Font, Key, KeyName};

/// Sessions that go into one script.
const SESSIONS: usize = 100;

/// The shortest label: widths 10 and 11 are the narrowest then.
const LABEL: &[u8] = b":";

/// A key of each kind, and a character of each: a letter, a space, a wide one, a mark, labels of 4, 8 and 9 columns.
fn alphabet() -> Vec<Key> {
    let mut keys: Vec<Key> = [0x61, 0x20, 0x5EA7, 0x301, 0x07, 0x85, 0x1F300].map(Key::typed).to_vec();
    keys.extend(
        [
            KeyName::Left,
            KeyName::Right,
            KeyName::Backspace,
            KeyName::Delete,
            KeyName::Home,
            KeyName::End,
            KeyName::Up,
            KeyName::Down,
        ]
        .map(Key::plain),
    );
    keys.extend(['w', 'k', 'u', 't'].map(Key::ctrl));
    keys.extend(['d', 'b', 'f'].map(Key::alt));
    keys
}

/// Where a list of keys begins.
#[derive(Clone, Copy)]
struct Start {
    font: Font,
    width: u16,
    /// Keys that come first.
    before: &'static [KeyName],
}

/// A space first, two words, a wide character with a mark, and labels of 4 and 8 columns; before it a short one.
const HISTORY: &[u8] = "座 a\n b\u{301}c\\x07 座\u{301}\u{85}\n".as_bytes();

fn starts() -> Vec<Start> {
    let mut starts = Vec::new();
    for before in [&[][..], &[KeyName::Up][..], &[KeyName::Up, KeyName::Left, KeyName::Left, KeyName::Left][..]] {
        for font in FONTS {
            for width in [10, 11] {
                starts.push(Start { font, width, before });
            }
        }
    }
    starts
}

/// Lists from an empty draft are one key longer than those from a remembered one.
fn length_from(start: Start, length: usize) -> usize {
    if start.before.is_empty() { length } else { length - 1 }
}

/// The keys of list number `index`, of all lists of this length.
fn list(alphabet: &[Key], length: usize, mut index: usize) -> Vec<Key> {
    let mut keys = Vec::with_capacity(length);
    for _ in 0..length {
        keys.push(alphabet[index % alphabet.len()]);
        index /= alphabet.len();
    }
    keys
}

fn session(start: Start, list: &[Key], calls: &mut Vec<Call>) {
    calls.push(open(start.font, start.width, LABEL, HISTORY));
    calls.extend(start.before.iter().map(|&name| Call::Key(Key::plain(name))));
    calls.extend(keys(list));
    calls.push(Call::Cancel);
}

fn calls_for(start: Start, keys: usize, length: usize) -> u64 {
    let length = length_from(start, length);
    let calls = start.before.len() + length + 2;
    (keys.pow(length as u32) * calls) as u64
}

/// The lists are as long as so many calls allow. Shorter ones stand at the front of longer ones.
pub fn scripts(most_calls: u64) -> Box<dyn Iterator<Item = Script>> {
    let alphabet = alphabet();
    let starts = starts();
    let all_calls = |length: usize| starts.iter().map(|&start| calls_for(start, alphabet.len(), length)).sum::<u64>();
    let length = (1..).take_while(|&length| all_calls(length) <= most_calls).last().unwrap_or(1);
    Box::new(starts.into_iter().flat_map(move |start| {
        let alphabet = alphabet.clone();
        let length = length_from(start, length);
        let lists = alphabet.len().pow(length as u32);
        (0..lists).step_by(SESSIONS).map(move |first| {
            let mut calls = Vec::new();
            for index in first..(first + SESSIONS).min(lists) {
                session(start, &list(&alphabet, length, index), &mut calls);
            }
            Script::of(calls)
        })
    }))
}
