//! Scripts to compare on. The same seed gives the same scripts.

pub mod characters;
pub mod damage;
pub mod exhaustive;
pub mod fixed;
pub mod histories;
pub mod numerals;
pub mod random;
pub mod sessions;

use crate::script::bytes::{self, Reader};
use crate::script::call::{Call, Finish, Font, Key, Open};
use random::Random;

/// More than any generated script is answered with.
pub const REPLY_ROOM: usize = 1 << 24;

/// The label that the original's jump has.
pub const LABEL: &[u8] = b"Go to line:";

pub const FONTS: [Font; 2] = [Font::Foyer, Font::Counter];

/// A script, with the room that its replies are given.
#[derive(Clone)]
pub struct Script {
    pub calls: Vec<Call>,
    /// Bytes after the calls that are no call.
    pub tail: Vec<u8>,
    pub reply_room: usize,
}

impl Script {
    pub fn of(calls: Vec<Call>) -> Script {
        Script { calls, tail: Vec::new(), reply_room: REPLY_ROOM }
    }

    /// The calls that any bytes spell, as far as they go.
    pub fn read(script: &[u8]) -> Script {
        let mut reader = Reader::new(script);
        let mut calls = Vec::new();
        loop {
            let begin = reader.at();
            match reader.call() {
                Some(call) => calls.push(call),
                None => return Script { calls, tail: script[begin..].to_vec(), reply_room: REPLY_ROOM },
            }
        }
    }

    pub fn bytes(&self) -> Vec<u8> {
        let mut out = Vec::new();
        for call in &self.calls {
            bytes::write(call, &mut out);
        }
        out.extend(&self.tail);
        out
    }
}

/// An opening with much room.
pub fn open(font: Font, width: u16, label: &[u8], history: &[u8]) -> Call {
    Call::Open(Open { font, line: 0, width, room: 65_536, label: label.to_vec(), history: history.to_vec() })
}

pub fn finish(lines: u64, history: &[u8]) -> Call {
    Call::Finish(Finish { lines, room: 65_536, history: history.to_vec() })
}

pub fn paste(text: &str) -> Call {
    Call::Paste(text.as_bytes().to_vec())
}

pub fn keys(keys: &[Key]) -> impl Iterator<Item = Call> + '_ {
    keys.iter().map(|&key| Call::Key(key))
}

/// A run of scripts that stops by itself or never.
pub struct Part {
    pub name: &'static str,
    /// The calls that it may make at most.
    pub calls: u64,
    pub scripts: Box<dyn Iterator<Item = Script>>,
}

/// All scripts of a comparison of about so many calls: lists of edges, every short list of keys, and random ones.
pub fn parts(seed: u64, calls: u64) -> Vec<Part> {
    let part = |name, share, scripts| Part { name, calls: share, scripts };
    let lists = calls / 10 * 6;
    vec![
        part("edges", calls / 4, fixed::scripts()),
        part("every short list of keys", lists, exhaustive::scripts(lists)),
        part("damaged scripts", calls / 50, damage::scripts(Random::new(seed ^ 0x5EED))),
        // Takes what the others left.
        part("random sessions", u64::MAX, sessions::scripts(Random::new(seed))),
    ]
}
