//! Histories, badly spelled on purpose.

use super::characters::{self, Mix, MIXES};
use super::random::Random;

/// Spellings that a loader can trip over.
const SPELLINGS: [&str; 18] = [
    "\\\\", "\\y", "\\x4a", "\\x4A", "\\x+5", "\\x5+", "\\x++", "\\x-5", "\\xZZ", "\\x 7", "\\x00", "\\x7F", "\\xff", "\\\u{5EA7}",
    "\\x\u{5EA7}1", "\\x1\u{5EA7}", "\\\\x41", "\\x\\x41",
];
/// The same where a line ends too early.
const ENDS: [&str; 6] = ["", "", "\\", "\\x", "\\x4", "\\x+"];

/// Takes four bytes of a line and loads to nothing.
const NOTHING: &str = "\\xZZ";

/// A line of just so many bytes that loads to just so many characters, at most as many as bytes.
pub fn line_of(bytes: usize, characters: usize) -> String {
    let mut line = NOTHING.repeat((bytes - characters) / NOTHING.len());
    line.push_str(&"a".repeat(characters));
    // What is left, at most three bytes, begins a code and ends too early.
    line.push_str(&"\\x4"[..bytes - line.len()]);
    line
}

fn long_line(random: &mut Random) -> String {
    let characters = random.between(254, 258);
    match random.below(5) {
        0 => "\\x41".repeat(characters),
        1 => "\u{1F300}".repeat(characters),
        2 => "b".repeat(characters),
        3 => line_of(random.between(1_022, 1_026), random.pick(&[0, 1, 255, 256, 257])),
        _ => line_of(random.between(257, 1_024), random.pick(&[1, 255, 256, 257])),
    }
}

fn line(random: &mut Random) -> Vec<u8> {
    match random.below(16) {
        0 | 1 => Vec::new(),
        2 => {
            let mut bytes = characters::text(random, Mix::Words, 3).into_bytes();
            characters::spoil(random, &mut bytes);
            bytes
        }
        3 => long_line(random).into_bytes(),
        4..=6 => {
            let count = random.between(1, 4);
            let mut text: String = (0..count).map(|_| random.pick(&SPELLINGS)).collect();
            text.push_str(random.pick(&ENDS));
            text.into_bytes()
        }
        7 => vec![0x0D; random.between(1, 2)],
        8 => {
            let mix = random.pick(&MIXES);
            let len = random.between(1, 40);
            characters::text(random, mix, len).replace('\n', "").into_bytes()
        }
        9 => random.pick(&["1", "-1", "50%", "q", "a", "\\x07"]).as_bytes().to_vec(),
        _ => {
            let len = random.between(1, 8);
            characters::text(random, Mix::Letters, len).into_bytes()
        }
    }
}

/// Some lines, each ended one way or another.
fn lines(random: &mut Random, count: usize) -> Vec<u8> {
    let mut bytes = Vec::new();
    for _ in 0..count {
        bytes.extend(line(random));
        bytes.extend(random.pick(&[&b"\n"[..], b"\n", b"\n", b"\r\n", b"\r\r\n"]));
    }
    if random.once_in(4) {
        // The last line has no end.
        bytes.extend(line(random));
    }
    bytes
}

pub fn history(random: &mut Random) -> Vec<u8> {
    let count = match random.below(20) {
        0..=4 => 0,
        5..=13 => random.between(1, 5),
        14..=17 => random.between(28, 34),
        18 => random.between(6, 40),
        _ => random.between(60, 80),
    };
    lines(random, count)
}

/// Short letters only, and as many lines as are asked for.
pub fn plain(count: usize) -> Vec<u8> {
    (0..count).flat_map(|i| format!("{i}\n").into_bytes()).collect()
}

/// Just so many bytes: lines of 100 letters, and the last as long as it takes.
pub fn of_length(bytes: usize) -> Vec<u8> {
    let mut history = Vec::new();
    while history.len() + 101 <= bytes {
        history.extend([b'c'; 100]);
        history.push(b'\n');
    }
    history.resize(bytes, b'd');
    history
}
