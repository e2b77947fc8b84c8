//! Scripts with bytes changed, lost and added, and replies that do not fit.

use super::random::Random;
use super::{sessions, Script};

fn damage(random: &mut Random, bytes: &mut Vec<u8>) {
    for _ in 0..random.between(1, 3) {
        if bytes.is_empty() {
            return;
        }
        let at = random.below(bytes.len());
        match random.below(5) {
            0 => bytes[at] = random.next() as u8,
            1 => bytes[at] ^= 1 << random.below(8),
            2 => {
                bytes.remove(at);
            }
            3 => bytes.insert(at, random.below(12) as u8),
            _ => bytes.truncate(at),
        }
    }
}

/// A script of a few small sessions, damaged or with little room for the replies.
fn script(random: &mut Random) -> Script {
    let mut calls = Vec::new();
    for _ in 0..random.between(1, 3) {
        sessions::small(random, &mut calls);
    }
    let mut script = Script::of(calls);
    if random.once_in(3) {
        script.reply_room = random.small(12);
    } else {
        let mut bytes = script.bytes();
        damage(random, &mut bytes);
        script = Script::read(&bytes);
    }
    script
}

pub fn scripts(mut random: Random) -> Box<dyn Iterator<Item = Script>> {
    Box::new(std::iter::repeat_with(move || script(&mut random)))
}
