//! What is typed for a jump: numbers at every edge, and what is no number.

use super::random::Random;

const MOST: i128 = i64::MAX as i128;

/// The listings that are tried with every text of `texts`.
pub const LISTINGS: [u64; 16] = [
    0,
    1,
    2,
    3,
    10,
    99,
    100,
    101,
    102,
    12_345,
    (1 << 32) - 1,
    1 << 32,
    (1 << 32) + 1,
    i64::MAX as u64,
    1 << 63,
    u64::MAX,
];

/// Every spelling of the numbers around 0, the listing's length, 100 and the limits.
pub fn texts(lines: u64) -> Vec<String> {
    let lines = i128::from(lines);
    let mut numbers = Vec::new();
    for middle in [0, 50, 100, lines, MOST, MOST * 10] {
        numbers.extend([middle - 2, middle - 1, middle, middle + 1, middle + 2]);
    }
    numbers.retain(|&number| number >= 0);
    numbers.sort_unstable();
    numbers.dedup();
    let mut texts: Vec<String> = ["", "q", "Q", "qq", " q", "%", "%%", "+", "-", "+%", "-%", "--1", "+-1", "-+1", " 1", "1 ", "1.5", "0x1", "1_0", "\u{661}"]
        .map(str::to_string)
        .to_vec();
    for number in &numbers {
        for sign in ["", "+", "-"] {
            for zeros in ["", "00"] {
                for end in ["", "%", "%%", "x", "x%", "0", "0x"] {
                    texts.push(format!("{sign}{zeros}{number}{end}"));
                }
            }
        }
    }
    texts
}

pub fn listing(random: &mut Random) -> u64 {
    match random.below(4) {
        0 => random.pick(&LISTINGS),
        1 => random.below(200) as u64,
        2 => random.next() >> random.below(64),
        _ => random.next() >> 32,
    }
}

pub fn text(random: &mut Random, lines: u64) -> String {
    if random.once_in(12) {
        return random.pick(&["", "q", "%", "+", "-", "-%", "q%", "\u{7}", "1\u{301}", "座"]).to_string();
    }
    let sign = random.pick(&["", "", "+", "-", "-"]);
    let anywhere = i128::from(random.next() >> random.below(64));
    let middle = random.pick(&[0, 50, 100, i128::from(lines), MOST, anywhere]);
    let number = (middle + random.between(0, 4) as i128 - 2).max(0);
    let zeros = random.pick(&["", "", "", "0", "00000000000000000000"]);
    let end = random.pick(&["", "", "", "%", "%", "x", " ", "5"]);
    format!("{sign}{zeros}{number}{end}")
}
