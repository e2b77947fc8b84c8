//! Random sessions.

use super::characters::{self, Mix, MIXES, NO_SCALARS};
use super::random::Random;
use super::{histories, numerals, Script, FONTS, LABEL};
use crate::counts::{ALT_LETTERS, CTRL_LETTERS};
use crate::run::Runner;
use crate::script::call::{Call, Finish, Held, Key, KeyName, Open, ALL_HELD, ALL_KEYS};
use crate::script::reply::{Reply, Rest, Written};

fn label(random: &mut Random) -> Vec<u8> {
    match random.below(8) {
        0..=4 => LABEL.to_vec(),
        5 => vec![b'L'; random.pick(&[1, 2, 31, 32])],
        6 => (0..random.between(1, 32)).map(|_| random.between(0x20, 0x7E) as u8).collect(),
        _ => match random.below(4) {
            0 => Vec::new(),
            1 => vec![b'L'; random.between(33, 40)],
            2 => vec![random.next() as u8; 3],
            _ => LABEL.to_vec(),
        },
    }
}

/// A label that is not refused.
fn fair_label(random: &mut Random) -> Vec<u8> {
    match random.below(4) {
        0 => vec![b'L'; random.pick(&[1, 2, 31, 32])],
        _ => LABEL.to_vec(),
    }
}

/// Around each limit, and anywhere else at times.
fn width(random: &mut Random, label: usize) -> u16 {
    let width = match random.below(16) {
        0..=3 => label + 9,
        4..=6 => label + 10,
        7..=9 => random.between(39, 41),
        10 => random.between(511, 512),
        11 => random.pick(&[label + 8, 513, 0, 1, 0xFFFF]),
        12 => label + random.between(9, 20),
        13 => label + random.between(11, 40),
        _ => random.between(label + 9, 512),
    };
    width as u16
}

/// A width that is not refused.
fn fair_width(random: &mut Random, label: usize) -> u16 {
    let width = width(random, label) as usize;
    if (label + 9..=512).contains(&width) { width as u16 } else { 40.max(label as u16 + 9) }
}

fn key(random: &mut Random, mix: Mix) -> Key {
    match random.below(40) {
        0..=15 => Key::typed(characters::character(random, mix)),
        16..=18 => Key::plain(KeyName::Left),
        19 => Key::plain(KeyName::Right),
        20 | 21 => Key::plain(random.pick(&[KeyName::Home, KeyName::End])),
        22 | 23 => Key::plain(random.pick(&[KeyName::Up, KeyName::Up, KeyName::Down])),
        24 | 25 => Key::plain(random.pick(&[KeyName::Backspace, KeyName::Delete])),
        26..=31 => Key::ctrl(pick_letter(random, CTRL_LETTERS)),
        32 | 33 => Key::alt(pick_letter(random, ALT_LETTERS)),
        34 => Key::with(Held::Alt, KeyName::Backspace),
        35 => Key::with(Held::Ctrl, random.pick(&[KeyName::Left, KeyName::Right])),
        36 => Key::typed(random.pick(&NO_SCALARS)),
        _ => Key { held: random.pick(&ALL_HELD), name: random.pick(&ALL_KEYS), code: any_code(random) },
    }
}

fn pick_letter(random: &mut Random, letters: &str) -> char {
    letters.as_bytes()[random.below(letters.len())] as char
}

fn any_code(random: &mut Random) -> u32 {
    match random.below(4) {
        0 => random.between(0x41, 0x7A) as u32,
        1 => random.pick(&NO_SCALARS),
        2 => random.next() as u32,
        _ => characters::character(random, Mix::All),
    }
}

fn pasted(random: &mut Random, mix: Mix, len: usize) -> Call {
    let mut bytes = characters::text(random, mix, len).into_bytes();
    if random.once_in(8) {
        characters::spoil(random, &mut bytes);
    }
    Call::Paste(bytes)
}

/// A call other than open, finish and cancel.
fn call(random: &mut Random, mix: Mix, label: usize) -> Call {
    match random.below(20) {
        0 => Call::Draw,
        1 => Call::Resize(width(random, label)),
        2 | 3 => {
            let len = random.pick(&[0, 1, 2, 3, 5, 12, 40]);
            pasted(random, mix, len)
        }
        _ => Call::Key(key(random, mix)),
    }
}

fn opened(random: &mut Random, width: u16, label: Vec<u8>, history: Vec<u8>) -> Call {
    let room = if random.once_in(12) {
        random.pick(&[0, 5, 6, 13, 10_405, 10_406, 10_413, 10_414, 11_000, 12_000, 65_535, 65_537, u32::MAX])
    } else {
        65_536
    };
    let line = random.pick(&[0, 0, 1, 24, 0x0102, 0xFFFF]);
    Call::Open(Open { font: random.pick(&FONTS), line, width, room, label, history })
}

/// The history that the host has at the end: often the one at opening, or one that another console added to.
fn present(random: &mut Random, opening: &[u8]) -> Vec<u8> {
    match random.below(8) {
        0..=3 => opening.to_vec(),
        4 => {
            let mut more = opening.to_vec();
            more.extend(random.pick(&[&b"a\n"[..], b"\n", b"\xFF\n", b"1\n", b"\r\n", b"z"]));
            more
        }
        5 => Vec::new(),
        _ => histories::history(random),
    }
}

fn ended(random: &mut Random, opening: &[u8], calls: &mut Vec<Call>) {
    if random.once_in(4) {
        calls.push(Call::Cancel);
        return;
    }
    let room = if random.once_in(6) { random.small(16) as u32 } else { 65_536 };
    let history = present(random, opening);
    calls.push(Call::Finish(Finish { lines: numerals::listing(random), room, history }));
}

/// A short session, refused at times.
pub fn small(random: &mut Random, calls: &mut Vec<Call>) {
    let label = label(random);
    let length = label.len();
    let history = if random.once_in(2) { Vec::new() } else { histories::history(random) };
    let width = width(random, length);
    calls.push(opened(random, width, label, history.clone()));
    let mix = random.pick(&MIXES);
    for _ in 0..random.below(8) {
        calls.push(call(random, mix, length));
    }
    ended(random, &history, calls);
}

/// Typing and editing, in a row of some width.
fn typing(random: &mut Random, calls: &mut Vec<Call>) {
    let label = fair_label(random);
    let length = label.len();
    let width = fair_width(random, length);
    let history = if random.once_in(3) { histories::history(random) } else { Vec::new() };
    calls.push(opened(random, width, label, history.clone()));
    let mix = random.pick(&MIXES);
    for _ in 0..random.between(10, 100) {
        calls.push(call(random, mix, length));
    }
    ended(random, &history, calls);
}

/// A draft of about 256 characters.
fn full(random: &mut Random, calls: &mut Vec<Call>) {
    let label = fair_label(random);
    let length = label.len();
    let width = fair_width(random, length);
    calls.push(opened(random, width, label, Vec::new()));
    let mix = random.pick(&MIXES);
    let first = random.between(0, 257);
    calls.push(pasted(random, mix, first));
    let second = 256 - first.min(256);
    let more = (second + random.between(0, 2)).saturating_sub(1);
    calls.push(pasted(random, mix, more));
    for _ in 0..random.between(5, 30) {
        calls.push(call(random, mix, length));
        if random.once_in(6) {
            calls.push(Call::Key(Key::plain(random.pick(&[KeyName::Home, KeyName::End]))));
        }
    }
    ended(random, &[], calls);
}

/// One drawing after another until the record is full.
fn filling(random: &mut Random, calls: &mut Vec<Call>) {
    let width = fair_width(random, LABEL.len());
    let room = random.between(10_406, 14_000) as u32;
    let font = random.pick(&FONTS);
    calls.push(Call::Open(Open { font, line: 0, width, room, label: LABEL.to_vec(), history: Vec::new() }));
    let mix = random.pick(&MIXES);
    for _ in 0..random.between(20, 80) {
        calls.push(call(random, mix, LABEL.len()));
    }
    ended(random, &[], calls);
}

/// The drafts of a history, walked and edited.
fn remembering(random: &mut Random, calls: &mut Vec<Call>) {
    let history = histories::history(random);
    let width = fair_width(random, LABEL.len());
    calls.push(opened(random, width, LABEL.to_vec(), history.clone()));
    for _ in 0..random.below(40) {
        let up_or_down = random.pick(&[KeyName::Up, KeyName::Up, KeyName::Up, KeyName::Down]);
        calls.push(Call::Key(Key::plain(up_or_down)));
        if random.once_in(5) {
            calls.push(call(random, Mix::Words, LABEL.len()));
        }
    }
    ended(random, &history, calls);
}

fn jumping(random: &mut Random, calls: &mut Vec<Call>) {
    let lines = numerals::listing(random);
    calls.push(opened(random, 60, LABEL.to_vec(), Vec::new()));
    calls.push(Call::Paste(numerals::text(random, lines).into_bytes()));
    calls.push(Call::Finish(Finish { lines, room: 65_536, history: Vec::new() }));
}

/// Sets the room of the last `finish` to just what is written, or a byte less or more.
fn fit_room(random: &mut Random, runner: &mut Runner, calls: &mut [Call]) {
    let written = calls.iter().filter_map(|call| runner.call(call)).last();
    let Some(Reply::Said(_, Rest::Finished(Written::Bytes(bytes), _))) = written else { return };
    if let Some(Call::Finish(finish)) = calls.last_mut() {
        finish.room = (bytes.len() + random.below(3) - 1) as u32;
    }
}

fn script(random: &mut Random, runner: &mut Runner) -> Script {
    let mut calls = Vec::new();
    match random.below(16) {
        0..=2 => {
            for _ in 0..random.between(1, 4) {
                small(random, &mut calls);
            }
        }
        3..=8 => typing(random, &mut calls),
        9 | 10 => full(random, &mut calls),
        11 => filling(random, &mut calls),
        12 | 13 => remembering(random, &mut calls),
        14 => {
            remembering(random, &mut calls);
            fit_room(random, runner, &mut calls);
        }
        _ => {
            for _ in 0..20 {
                jumping(random, &mut calls);
            }
        }
    }
    Script::of(calls)
}

pub fn scripts(mut random: Random) -> Box<dyn Iterator<Item = Script>> {
    let mut runner = Runner::new();
    Box::new(std::iter::repeat_with(move || script(&mut random, &mut runner)))
}
