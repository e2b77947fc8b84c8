//! A fixed script with the replies to it, for a replay that needs neither the original nor Rust.

use std::fs;
use std::path::Path;

use crate::counts::{ALT_LETTERS, CTRL_LETTERS};
use crate::generate::characters::{self, NO_SCALARS};
use crate::generate::random::Random;
use crate::generate::{finish, histories, keys, open, paste, sessions, FONTS, LABEL};
use crate::run::Runner;
use crate::script::call::{Call, Finish, Font, Held, Key, KeyName, Open, ALL_KEYS};
use crate::script::lines::{call_line, read_call, reply_line};

/// The calls of the sample, at least.
const CALLS: usize = 2_600;
const SEED: u64 = 31;

/// A part of the script, with its heading.
struct Section {
    title: &'static str,
    calls: Vec<Call>,
}

/// Writes both files, and tells what is in them.
pub fn write(script: &Path, replies: &Path) -> Result<String, String> {
    let mut sections = fixed_sections();
    let fixed: usize = sections.iter().map(|section| section.calls.len()).sum();
    sections.push(random_sessions(CALLS.saturating_sub(fixed)));
    let mut answering = Answering::new();
    answering.note("# A script in the spelling of docs/SCRIPT.md. It was written by oracle/ (sample), and so were the replies to it,");
    answering.note("# which are those of the original Rust prompt but for the differences that docs/DIFFERENCES.md lists.");
    for section in sections {
        answering.note(&format!("\n# {}", section.title));
        for call in section.calls {
            answering.call(call);
        }
    }
    answering.note("\n# lines that are no call, and calls that cannot stand");
    for line in BROKEN_LINES {
        answering.line(line);
    }
    answering.is_complete()?;
    let told = format!("{} calls and as many replies", answering.replies.lines().count());
    fs::write(script, answering.script).map_err(|error| format!("{}: {error}", script.display()))?;
    fs::write(replies, answering.replies).map_err(|error| format!("{}: {error}", replies.display()))?;
    Ok(told)
}

const BROKEN_LINES: [&str; 14] = [
    "draw",
    "key none U+61",
    "cancel",
    "finish 10 100 -",
    "open foyer 0 40 65536 3A",
    "open lobby 0 40 65536 3A -",
    "open foyer 0 40 65536 3A -",
    "open foyer 0 40 65536 3A -",
    "key none",
    "key shift U+61",
    "paste 6",
    "paste 6g",
    "jump 3",
    "cancel",
];

/// Answers line by line, and keeps both texts. Each font has a runner of its own, so that it is known what each of them reached.
struct Answering {
    runners: [Runner; 2],
    font: Font,
    is_open: bool,
    script: String,
    replies: String,
}

impl Answering {
    fn new() -> Answering {
        Answering {
            runners: [Runner::new(), Runner::new()],
            font: Font::Foyer,
            is_open: false,
            script: String::new(),
            replies: String::new(),
        }
    }

    fn note(&mut self, line: &str) {
        self.script.push_str(line);
        self.script.push('\n');
    }

    fn call(&mut self, mut call: Call) {
        // A line has no place for the code of a key that is no character.
        if let Call::Key(key) = &mut call {
            if key.name != KeyName::Char {
                key.code = 0;
            }
        }
        let line = call_line(&call);
        assert_eq!(read_call(&line), Some(call), "a line spells its call");
        self.line(&line);
    }

    fn line(&mut self, line: &str) {
        self.note(line);
        let call = read_call(line);
        if let (Some(Call::Open(open)), false) = (&call, self.is_open) {
            self.font = open.font;
        }
        let runner = &mut self.runners[self.font as usize];
        let reply = call.and_then(|call| runner.call(&call));
        self.is_open = runner.is_open();
        self.replies.push_str(&reply.map_or("broken".to_string(), |reply| reply_line(&reply)));
        self.replies.push('\n');
    }

    /// All was reached by one font or the other, and every key and every answer by both.
    fn is_complete(&self) -> Result<(), String> {
        let [foyer, counter] = self.runners.each_ref().map(|runner| runner.counts.missing());
        let of_each = |what: &&String| what.starts_with("key ") || what.starts_with("answer ");
        let by_neither = foyer.iter().filter(|what| counter.contains(what));
        let by_one = foyer.iter().chain(&counter).filter(of_each);
        let missing: Vec<&str> = by_neither.chain(by_one).map(String::as_str).collect();
        if missing.is_empty() {
            return Ok(());
        }
        Err(format!("the sample never reaches: {}", missing.join(", ")))
    }
}

fn fixed_sections() -> Vec<Section> {
    let mut sections = Vec::new();
    let mut section = |title, calls| sections.push(Section { title, calls });
    for font in FONTS {
        section("letters up to the margin, and past it", margin(font));
        section("every key, in an empty draft and in the middle of one", every_key(font));
        section("characters of every kind, typed", typed(font));
        section("characters at the edges of the fonts", edges(font));
        section("words", words(font));
        section("the refusals of a session", refusals(font));
        section("full drafts", full(font));
    }
    section("openings that are refused, and ones that just pass", openings());
    section("a record that fills up", filling());
    section("history that is loaded", loaded());
    section("history that is written", written());
    section("jumps", jumps());
    sections
}

fn margin(font: Font) -> Vec<Call> {
    let mut calls = Vec::new();
    for width in [20, 21, 40] {
        calls.push(open(font, width, LABEL, b""));
        calls.extend(keys(&[Key::typed(0x61); 8]));
        if width == 40 {
            calls.extend(keys(&[Key::typed(0x62); 14]));
        }
        calls.push(Call::Draw);
        calls.extend(keys(&[Key::ctrl('u'), Key::typed(0x63)]));
        calls.extend([512, 513, 19, 20, 40].map(Call::Resize));
        calls.push(finish(10, b""));
    }
    calls
}

/// Every key that means something, and some that do not.
fn every_key(font: Font) -> Vec<Call> {
    let mut list: Vec<Key> = ALL_KEYS.into_iter().map(Key::plain).collect();
    list[0] = Key::typed(0x7A);
    list.extend(CTRL_LETTERS.chars().map(Key::ctrl));
    list.extend(ALT_LETTERS.chars().map(Key::alt));
    for held in [Held::Ctrl, Held::Alt, Held::Other] {
        list.extend([KeyName::Left, KeyName::Right, KeyName::Backspace, KeyName::Enter].map(|name| Key::with(held, name)));
        list.push(Key { held, ..Key::typed(0x71) });
    }
    let mut calls = Vec::new();
    for key in list {
        calls.push(open(font, 26, LABEL, b"1\n22\n"));
        calls.push(Call::Key(key));
        calls.push(paste("ab  c\u{301} d\u{7}e"));
        calls.extend(keys(&[Key::alt('b'), Key::plain(KeyName::Left), key, key]));
        calls.push(Call::Cancel);
    }
    calls
}

fn typed(font: Font) -> Vec<Call> {
    let list = [0x61, 0x20, 0x301, 0x5EA7, 0xA0, 0x07, 0x7F, 0x85, 0x1F300, 0x10FFFF, 0x200B, 0xFF01];
    let mut calls = Vec::new();
    for width in [20, 23, 30, 60] {
        calls.push(open(font, width, LABEL, b""));
        calls.extend(keys(&list.map(Key::typed)));
        calls.extend(keys(&[KeyName::Home, KeyName::Right, KeyName::Right, KeyName::End, KeyName::Left].map(Key::plain)));
        calls.push(Call::Cancel);
    }
    calls
}

fn edges(font: Font) -> Vec<Call> {
    let codes: Vec<char> = characters::edges().into_iter().filter_map(char::from_u32).collect();
    let mut calls = vec![open(font, 90, b":", b"")];
    for row in codes.chunks(3) {
        calls.push(paste(&row.iter().collect::<String>()));
        calls.push(Call::Key(Key::ctrl('u')));
    }
    calls.push(Call::Cancel);
    calls
}

fn words(font: Font) -> Vec<Call> {
    let mut calls = Vec::new();
    let back = [Key::ctrl('w'), Key::alt('b'), Key::with(Held::Alt, KeyName::Backspace), Key::with(Held::Ctrl, KeyName::Left)];
    for text in ["row F 12", " ab", " a ", "  ", "\u{3000}座", "a\u{85}b", "  x"] {
        for key in back {
            calls.push(open(font, 24, LABEL, b""));
            calls.push(paste(text));
            calls.extend(keys(&[key, key, Key::alt('f'), Key::alt('d')]));
            calls.push(Call::Cancel);
        }
    }
    calls
}

fn refusals(font: Font) -> Vec<Call> {
    let mut calls = vec![open(font, 19, LABEL, b"")];
    let each = [Call::Draw, Call::Key(Key::plain(KeyName::Enter)), paste("a"), Call::Resize(19), Call::Resize(40)];
    calls.extend(each);
    calls.extend(NO_SCALARS.map(|code| Call::Key(Key::typed(code))));
    calls.push(Call::Key(Key { code: 0xD800, ..Key::ctrl('a') }));
    for bytes in [&b"a\xFF"[..], b"\xE2\x82", b"ab\xED\xA0\x80", b"\xF4\x90\x80\x80", b"\xC3\xA9\xC0\x80", b"\xF0\x9F\x8C\x80\x80"] {
        calls.push(Call::Paste(bytes.to_vec()));
    }
    calls.push(finish(10, b""));
    calls
}

fn full(font: Font) -> Vec<Call> {
    let mut calls = vec![open(font, 60, LABEL, b"")];
    calls.push(paste(&"a".repeat(257)));
    calls.push(paste(&"ab ".repeat(85)));
    calls.push(paste("cd"));
    calls.extend(keys(&[Key::typed(0x63), Key::typed(0x64), Key::plain(KeyName::Home), Key::typed(0x65), Key::ctrl('k')]));
    calls.push(finish(10, b""));
    calls
}

fn openings() -> Vec<Call> {
    let plain = Open { font: Font::Foyer, line: 0x0102, width: 50, room: 65_536, label: LABEL.to_vec(), history: Vec::new() };
    let mut calls = Vec::new();
    for label in [&b""[..], &[b'L'; 33], b"a\x1Fb", b"\x7F", b"\xC3\xA9"] {
        calls.push(Call::Open(Open { label: label.to_vec(), width: 0, ..plain.clone() }));
    }
    calls.push(Call::Open(Open { history: histories::of_length(65_537), width: 0, room: 0, ..plain.clone() }));
    calls.push(Call::Open(Open { width: 0, room: 0, ..plain.clone() }));
    calls.push(Call::Open(Open { width: 513, ..plain.clone() }));
    calls.push(Call::Open(Open { room: 5, ..plain.clone() }));
    for open in [
        Open { label: vec![b'L'; 32], ..plain.clone() },
        Open { label: b" ".to_vec(), ..plain.clone() },
        Open { width: 1, ..plain.clone() },
        Open { width: 512, ..plain.clone() },
        Open { room: 6, ..plain.clone() },
        Open { room: u32::MAX, line: 0xFFFF, ..plain.clone() },
    ] {
        calls.extend([Call::Open(open), Call::Draw, Call::Cancel]);
    }
    calls
}

fn filling() -> Vec<Call> {
    let mut calls = Vec::new();
    for room in [10_405, 10_406, 10_500] {
        let plain = Open { font: Font::Counter, line: 3, width: 40, room, label: LABEL.to_vec(), history: Vec::new() };
        calls.push(Call::Open(plain));
        for _ in 0..3 {
            calls.extend([Call::Key(Key::typed(0x61)), paste("b"), Call::Draw, Call::Resize(41), Call::Key(Key::typed(0xD800))]);
        }
        calls.push(finish(10, b""));
    }
    calls
}

fn loaded() -> Vec<Call> {
    let mut calls = Vec::new();
    let list: [&[u8]; 16] = [
        b"\\x+5\na\\x4\na\\\n\\xZZb\n",
        b"\\\\\n\\y\n\\x4a\n\\x",
        b"a\r\nb\r\r\nc\rd\ne\r",
        b"a\n\nb\n\r\n\n",
        b"a\n\xFF\nb\xE2\x82\n",
        b"\\x\xE5\xBA\xA71b\n\\\xE5\xBA\xA7\n",
        &histories::plain(31),
        &histories::plain(32),
        &histories::plain(33),
        &histories::line_of(1_024, 256).into_bytes(),
        &histories::line_of(1_025, 256).into_bytes(),
        &histories::line_of(1_024, 257).into_bytes(),
        &[b'a'; 256],
        &[b'a'; 257],
        b"\n",
        b"\xE5\xBA\xA7\\x07\xC2\x85 words\n",
    ];
    for (i, history) in list.iter().enumerate() {
        calls.push(open(FONTS[i % 2], 30, LABEL, history));
        let ups = if (6..9).contains(&i) { 32 } else { 5 };
        calls.extend(keys(&vec![Key::plain(KeyName::Up); ups]));
        calls.extend(keys(&[Key::typed(0x78), Key::plain(KeyName::Down), Key::plain(KeyName::Up), Key::plain(KeyName::Home)]));
        calls.push(Call::Cancel);
    }
    calls
}

fn written() -> Vec<Call> {
    let many = histories::plain(31);
    let more: Vec<u8> = [&many[..], b"a\r\n"].concat();
    let long = [&[b'b'; 257][..], b"\n"].concat();
    let too_long = histories::of_length(65_537);
    let list: [(&[u8], &[u8]); 14] = [
        (b"", b""),
        (b"a\n", b"a\n"),
        (b"a\n", b"a\nb\n"),
        (b"b\n", b"b\na"),
        (b"a\n\n", b"a\n\n"),
        (b"", b"a\n\xFF\n"),
        (b"x\r\ny\r\r\nz", b"x\r\ny\r\r\nz"),
        (b"\\x61\n", b"\\x61\n"),
        (&many, &many),
        (&many, &more),
        (&long, &long),
        (b"a\n", &long),
        (b"", b"\n\r\n\xFF"),
        (b"", &too_long),
    ];
    let mut calls = Vec::new();
    for (opening, present) in list {
        for text in ["", "a", "\u{7}\\座\u{7F}"] {
            if present.len() > 65_536 && text != "a" {
                continue;
            }
            calls.push(open(Font::Foyer, 40, LABEL, opening));
            calls.push(paste(text));
            calls.push(finish(10, present));
        }
    }
    // The same with room for just what is written, and a byte less.
    for room in [0, 1, 2, 3, 4, 5] {
        calls.push(open(Font::Counter, 40, LABEL, b"b\n"));
        calls.push(paste("a"));
        calls.push(Call::Finish(Finish { lines: 10, room, history: b"b\r\n".to_vec() }));
    }
    calls.push(open(Font::Foyer, 40, LABEL, b"1\n2\n"));
    calls.extend(keys(&[Key::plain(KeyName::Up), Key::plain(KeyName::Up)]));
    calls.push(finish(2, b"1\n2\n"));
    calls
}

fn jumps() -> Vec<Call> {
    let long = 1 << 32;
    let ten = ["-10", "-11", "-9", "-1", "-0", "0", "+1", "1", "9", "10", "11", "-25%", "25%", "100%", "101%", "-100%", "-101%", "0%", "-1%"];
    let no_numbers = ["", "q", "qq", "%", "%%", "+", "-", "+%", "--1", " 1", "1 ", "1.5", "座", "922337203685477580x", "9999999999999999999x"];
    let limits = [
        "9223372036854775807",
        "9223372036854775808",
        "-9223372036854775808",
        "-9223372036854775809",
        "9223372036854775807%",
        "-9223372036854775808%",
    ];
    let mut list: Vec<(u64, &str)> = ten.iter().chain(&no_numbers).chain(&limits).map(|&text| (10, text)).collect();
    list.extend(["1", "0", "-1", "100%", "q", "", "x", "%"].map(|text| (0, text)));
    list.extend(["1", "0", "-1", "-2", "2", "50%"].map(|text| (1, text)));
    list.extend(["4294967296", "4294967297", "-4294967296", "-4294967295", "99%", "100%", "-1%"].map(|text| (long, text)));
    list.extend(["1", "q", "", "x", "100%"].map(|text| (long + 1, text)));
    list.push((u64::MAX, "100%"));
    list.push((1 << 62, "100%"));
    let session = |(lines, text): (u64, &str)| [open(Font::Foyer, 40, LABEL, b""), paste(text), finish(lines, b"")];
    list.into_iter().flat_map(session).collect()
}

/// Random sessions of both fonts, of so many calls at least.
fn random_sessions(calls_wanted: usize) -> Section {
    let mut random = Random::new(SEED);
    let mut calls = Vec::new();
    while calls.len() < calls_wanted {
        sessions::small(&mut random, &mut calls);
    }
    Section { title: "random sessions", calls }
}
