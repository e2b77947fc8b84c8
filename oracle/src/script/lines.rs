//! Scripts and replies as lines, for people.

use std::fmt::Write;

use super::call::{Call, Finish, Font, Held, Key, KeyName, Open, ALL_HELD, ALL_KEYS};
use super::reply::{Answer, Draft, Jump, Refusal, Reply, Rest, Written};

pub fn hex(bytes: &[u8]) -> String {
    if bytes.is_empty() {
        return "-".to_string();
    }
    bytes.iter().fold(String::new(), |mut line, byte| {
        let _ = write!(line, "{byte:02X}");
        line
    })
}

fn unhex(word: &str) -> Option<Vec<u8>> {
    if word == "-" {
        return Some(Vec::new());
    }
    if word.len() % 2 != 0 || !word.bytes().all(|b| b.is_ascii_hexdigit()) {
        return None;
    }
    (0..word.len()).step_by(2).map(|i| u8::from_str_radix(&word[i..i + 2], 16).ok()).collect()
}

fn held_name(held: Held) -> &'static str {
    match held {
        Held::None => "none",
        Held::Ctrl => "ctrl",
        Held::Alt => "alt",
        Held::Other => "other",
    }
}

fn font_name(font: Font) -> &'static str {
    match font {
        Font::Foyer => "foyer",
        Font::Counter => "counter",
    }
}

fn key_word(key: &Key) -> String {
    match key.name {
        KeyName::Char => format!("U+{:X}", key.code),
        name => format!("{name:?}"),
    }
}

pub fn call_line(call: &Call) -> String {
    match call {
        Call::Open(open) => format!(
            "open {} {} {} {} {} {}",
            font_name(open.font),
            open.line,
            open.width,
            open.room,
            hex(&open.label),
            hex(&open.history)
        ),
        Call::Draw => "draw".to_string(),
        Call::Key(key) => format!("key {} {}", held_name(key.held), key_word(key)),
        Call::Paste(bytes) => format!("paste {}", hex(bytes)),
        Call::Resize(width) => format!("resize {width}"),
        Call::Finish(finish) => format!("finish {} {} {}", finish.lines, finish.room, hex(&finish.history)),
        Call::Cancel => "cancel".to_string(),
    }
}

fn read_key(held: &str, name: &str) -> Option<Key> {
    let held = ALL_HELD.into_iter().find(|&h| held_name(h) == held)?;
    if let Some(code) = name.strip_prefix("U+") {
        let is_hex = !code.is_empty() && code.bytes().all(|b| b.is_ascii_hexdigit());
        let code = u32::from_str_radix(code, 16).ok().filter(|_| is_hex)?;
        return Some(Key { held, name: KeyName::Char, code });
    }
    let name = ALL_KEYS.into_iter().skip(1).find(|&k| format!("{k:?}") == name)?;
    Some(Key { held, name, code: 0 })
}

/// A number without a sign.
fn number<N: std::str::FromStr>(word: &str) -> Option<N> {
    word.parse().ok().filter(|_| !word.starts_with('+'))
}

/// The call that a line spells, if any.
pub fn read_call(line: &str) -> Option<Call> {
    let words: Vec<&str> = line.split(' ').collect();
    match words[..] {
        ["open", font, line, width, room, label, history] => {
            let font = [Font::Foyer, Font::Counter].into_iter().find(|&f| font_name(f) == font)?;
            let label = unhex(label).filter(|label| label.len() <= 0xFF)?;
            let history = unhex(history)?;
            Some(Call::Open(Open { font, line: number(line)?, width: number(width)?, room: number(room)?, label, history }))
        }
        ["draw"] => Some(Call::Draw),
        ["key", held, name] => read_key(held, name).map(Call::Key),
        ["paste", bytes] => unhex(bytes).filter(|bytes| bytes.len() <= 0xFFFF).map(Call::Paste),
        ["resize", width] => number(width).map(Call::Resize),
        ["finish", lines, room, history] => {
            Some(Call::Finish(Finish { lines: number(lines)?, room: number(room)?, history: unhex(history)? }))
        }
        ["cancel"] => Some(Call::Cancel),
        _ => None,
    }
}

fn said(said: &Result<Answer, Refusal>) -> String {
    match said {
        Ok(answer) => format!("ok {answer:?}"),
        Err(refusal) if refusal.number == 16 => format!("refused 16 at {}", refusal.place),
        Err(refusal) => format!("refused {}", refusal.number),
    }
}

fn text_word(text: &[u32]) -> String {
    if text.is_empty() {
        return "-".to_string();
    }
    text.iter().map(|code| format!("{code:X}")).collect::<Vec<_>>().join(".")
}

fn rest_words(rest: &Rest) -> String {
    match rest {
        Rest::None => String::new(),
        Rest::Draft(Draft { text, place, offset }, record) => {
            format!(" text {} place {place} offset {offset} record {}", text_word(text), hex(record))
        }
        Rest::Finished(written, jump) => {
            let written = match written {
                Written::Refused(number) => format!("refused {number}"),
                Written::Nothing => "nothing".to_string(),
                Written::Bytes(bytes) => hex(bytes),
            };
            let jump = match jump {
                Jump::Refused(number) => format!("refused {number}"),
                Jump::Quit => "quit".to_string(),
                Jump::Stay => "stay".to_string(),
                Jump::Line(line) => format!("line {line}"),
            };
            format!(" history {written} jump {jump}")
        }
    }
}

pub fn reply_line(reply: &Reply) -> String {
    match reply {
        Reply::Said(what, rest) => said(what) + &rest_words(rest),
        Reply::Broken(_) => "broken".to_string(),
    }
}
