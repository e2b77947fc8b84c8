//! Lists of edges, the same for every seed.

use super::{characters, finish, histories, keys, numerals, open, paste, Script, FONTS, LABEL};
use crate::script::call::{Call, Finish, Font, Held, Key, KeyName, Open, ALL_HELD, ALL_KEYS};

pub fn scripts() -> Box<dyn Iterator<Item = Script>> {
    Box::new(
        openings()
            .chain(widths())
            .chain(key_table())
            .chain(edge_characters())
            .chain(full_drafts())
            .chain(small_rooms())
            .chain(edge_histories())
            .chain(kept_lines())
            .chain(rewritten_histories())
            .chain(jumps())
            .chain(all_characters()),
    )
}

/// Every choice of what `open` can be refused for, and labels of every length.
fn openings() -> impl Iterator<Item = Script> {
    let mut opens = Vec::new();
    let plain = Open { font: Font::Foyer, line: 0, width: 40, room: 65_536, label: LABEL.to_vec(), history: Vec::new() };
    for label in [&b""[..], LABEL, b"\x1F", &[b'L'; 33]] {
        for length in [0, 65_536, 65_537] {
            for width in [0, 1, 512, 513, 0xFFFF] {
                for room in [0, 5, 6, 65_537, u32::MAX] {
                    let history = histories::of_length(length);
                    opens.push(Open { width, room, label: label.to_vec(), history, ..plain.clone() });
                }
            }
        }
    }
    for length in (0..40).chain([254, 255]) {
        opens.push(Open { label: vec![b'L'; length], width: 60, ..plain.clone() });
    }
    for byte in 0..=0xFF {
        opens.push(Open { label: vec![b'a', byte, b'z'], width: 60, ..plain.clone() });
    }
    for line in [1, 0xFF, 0x100, 0x102, 0xFFFF] {
        opens.push(Open { line, ..plain.clone() });
    }
    opens.into_iter().map(|open| Script::of(vec![Call::Open(open), Call::Draw, Call::Key(Key::typed(0x61)), Call::Cancel]))
}

/// Every call at the widths around each limit, for labels of several lengths.
fn widths() -> impl Iterator<Item = Script> {
    let width_list = |label: u16| {
        let near = label + 7..=label + 12;
        near.chain([1, 39, 40, 41, 510, 511, 512, 513, 0, 0xFFFF])
    };
    [1, 2, 11, 31, 32].into_iter().flat_map(move |label| {
        let sizes: Vec<u16> = width_list(label).collect();
        let pairs: Vec<(u16, u16)> = sizes.iter().flat_map(|&a| sizes.iter().map(move |&b| (a, b))).collect();
        pairs.into_iter().map(move |(before, after)| {
            let mut calls = vec![open(Font::Foyer, before, &vec![b'L'; label as usize], b"one\ntwo words\n")];
            calls.push(Call::Draw);
            calls.extend(keys(&[Key::typed(0x61), Key::plain(KeyName::Up)]));
            calls.push(paste(" 座\u{7}x"));
            calls.push(Call::Resize(after));
            calls.push(Call::Draw);
            calls.extend(keys(&[Key::plain(KeyName::Down), Key::plain(KeyName::Enter), Key::typed(0x62)]));
            calls.push(paste("0123456789"));
            calls.push(Call::Resize(before));
            calls.push(Call::Cancel);
            Script::of(calls)
        })
    })
}

/// Every key with every modifier, and every character up to 00FF, in the middle of a draft and in an empty one.
fn key_table() -> impl Iterator<Item = Script> {
    let mut pressed = Vec::new();
    for held in ALL_HELD {
        for name in ALL_KEYS {
            let codes: Vec<u32> = match name {
                KeyName::Char => (0..=0x100).chain(characters::NO_SCALARS).collect(),
                // The codes of keys that are no characters mean nothing, not even 'w' or a surrogate.
                _ => vec![0, 0x77, 0xD800, 0xFFFF_FFFF],
            };
            pressed.extend(codes.into_iter().map(|code| Key { held, name, code }));
        }
    }
    FONTS.into_iter().flat_map(move |font| {
        pressed.clone().into_iter().map(move |key| {
            let mut calls = vec![open(font, 30, LABEL, b"first\nsecond\n")];
            calls.push(Call::Key(key));
            calls.push(paste("two words  here"));
            calls.extend(keys(&[Key::alt('b'), Key::plain(KeyName::Left), key, key]));
            calls.push(finish(10, b""));
            Script::of(calls)
        })
    })
}

/// The characters at the edges of the fonts, one at a time, where one of 2 columns is the first that is no letter.
fn edge_characters() -> impl Iterator<Item = Script> {
    FONTS.into_iter().flat_map(|font| {
        characters::edges().into_iter().map(move |code| {
            let typed = Key::typed(code);
            let mut calls = vec![open(font, 23, LABEL, b"")];
            calls.extend(keys(&[typed, typed]));
            calls.push(Call::Draw);
            calls.push(Call::Resize(40));
            calls.extend(keys(&[Key::typed(0x61), Key::plain(KeyName::Left), Key::plain(KeyName::Left), Key::plain(KeyName::Right)]));
            calls.push(finish(10, b""));
            Script::of(calls)
        })
    })
}

/// Drafts of about 256 characters, filled by keys and by pastes.
fn full_drafts() -> impl Iterator<Item = Script> {
    let sizes = (0..=4).flat_map(|short| (0..=4).map(move |added| (258 - short, added)));
    sizes.flat_map(|(size, added)| {
        ["a", "座", "\u{7}", "\u{301}", "\u{1F300}"].into_iter().flat_map(move |character| {
            FONTS.into_iter().map(move |font| {
                let mut calls = vec![open(font, 512, LABEL, b"")];
                calls.push(paste(&character.repeat(size)));
                calls.push(paste(&character.repeat(size - 2)));
                calls.push(paste(&character.repeat(added)));
                calls.extend(keys(&[Key::typed(0x62), Key::typed(0x62), Key::typed(0x62)]));
                calls.extend(keys(&[Key::plain(KeyName::Home), Key::typed(0x63), Key::plain(KeyName::Delete), Key::typed(0x64)]));
                calls.push(Call::Paste(vec![0x61, 0xFF]));
                calls.push(finish(10, b""));
                Script::of(calls)
            })
        })
    })
}

/// Recorders that are full at once, soon, or after many drawings.
fn small_rooms() -> impl Iterator<Item = Script> {
    let near = 10_404..=10_416;
    near.chain([6, 13, 14, 10_446, 10_453, 10_460, 10_500, 11_000]).map(|room| {
        let plain = Open { font: Font::Foyer, line: 7, width: 40, room, label: LABEL.to_vec(), history: Vec::new() };
        let mut calls = vec![Call::Open(plain)];
        for _ in 0..12 {
            calls.push(Call::Key(Key::typed(0x61)));
            calls.push(Call::Draw);
            calls.push(Call::Resize(41));
            calls.push(Call::Paste(vec![0xFF]));
            calls.push(Call::Key(Key::typed(0xD800)));
            calls.push(Call::Key(Key::plain(KeyName::Enter)));
            calls.push(Call::Resize(19));
            calls.push(paste("b"));
        }
        calls.push(finish(10, b""));
        Script::of(calls)
    })
}

/// Histories at each limit: bytes of a line, characters of a draft, lines, and bytes in all.
fn edge_histories() -> impl Iterator<Item = Script> {
    let mut list: Vec<Vec<u8>> = Vec::new();
    for bytes in [1_023, 1_024, 1_025] {
        for characters in [0, 1, 255, 256, 257] {
            list.push(histories::line_of(bytes, characters).into_bytes());
        }
    }
    for characters in 254..=258 {
        for unit in ["a", "\\x41", "\\\\", "座", "\u{1F300}", "\\\u{1F300}"] {
            list.push(unit.repeat(characters).into_bytes());
        }
    }
    for length in [65_535, 65_536, 65_537] {
        list.push(histories::of_length(length));
        list.push(vec![b'\n'; length]);
        list.push(b"a\n".repeat(length / 2 + 1)[..length].to_vec());
    }
    for bytes in [&b"\n"[..], b"\r", b"\r\n", b"a\r", b"a\r\n", b"a\r\r\n", b"a\rb\n", b"\n\r\n\n", b"a\n\nb\n", b"a\n\xFF\nb", b"\\", b"\\x", b"\\x4"] {
        list.push(bytes.to_vec());
    }
    list.into_iter().flat_map(|history| {
        let with_more = [history.clone(), [b"before\n", &history[..]].concat(), [&history[..], b"\nafter"].concat()];
        with_more.into_iter().flat_map(|history| {
            [None, Some("a"), Some("座")].into_iter().flat_map(move |typed| {
                let at_the_end_only = read_and_written(b"", &history, typed);
                [read_and_written(&history, &history, typed), at_the_end_only]
            })
        })
    })
}

/// The last draft of a history, or a new text, written to another.
fn read_and_written(opening: &[u8], present: &[u8], typed: Option<&str>) -> Script {
    let mut calls = vec![open(Font::Counter, 60, LABEL, opening)];
    calls.extend(keys(&[Key::plain(KeyName::Up), Key::plain(KeyName::Up)]));
    if let Some(text) = typed {
        calls.extend(keys(&[Key::plain(KeyName::Down), Key::plain(KeyName::Down)]));
        calls.push(paste(text));
    }
    calls.push(finish(10, present));
    Script::of(calls)
}

/// From no line to more than are kept; every draft is shown, and the new text written.
fn kept_lines() -> impl Iterator<Item = Script> {
    (0..=34).chain([99, 998, 999, 1_000, 1_001, 1_100]).map(|count| {
        let history = histories::plain(count);
        let mut calls = vec![open(Font::Foyer, 40, LABEL, &history)];
        calls.extend(keys(&vec![Key::plain(KeyName::Up); count.min(33) + 1]));
        calls.push(Call::Key(Key::typed(0x78)));
        calls.push(finish(10, &history));
        Script::of(calls)
    })
}

/// A text that is the last line, was the last line, or is not; and room for what is written, just so and one byte less.
fn rewritten_histories() -> impl Iterator<Item = Script> {
    let list: [&[u8]; 12] =
        [b"", b"a\n", b"a", b"a\r\n", b"b\na\n", b"a\nb\n", b"a\n\n", b"a\n\xFF\n", b"\\x61\n", b"a\r\r\n", b"\n", b"b\n\r\n"];
    list.into_iter().flat_map(move |opening| {
        list.into_iter().flat_map(move |present| {
            ["", "a", "b", "\\", "\u{7}"].into_iter().flat_map(move |text| {
                (0..=14).chain([65_536, 65_537]).map(move |room| {
                    let end = Finish { lines: 10, room, history: present.to_vec() };
                    Script::of(vec![open(Font::Foyer, 40, LABEL, opening), paste(text), Call::Finish(end)])
                })
            })
        })
    })
}

/// Every numeral of `numerals` in every listing, some hundred sessions to a script.
fn jumps() -> impl Iterator<Item = Script> {
    numerals::LISTINGS.into_iter().flat_map(|lines| {
        let texts = numerals::texts(lines);
        let scripts: Vec<Script> = texts
            .chunks(100)
            .map(|texts| {
                let session = |text: &String| [open(Font::Foyer, 40, LABEL, b""), paste(text), finish(lines, b"")];
                Script::of(texts.iter().flat_map(session).collect())
            })
            .collect();
        scripts
    })
}

/// Every scalar value, sixteen to a row: the row and the cursor tell their columns.
fn all_characters() -> impl Iterator<Item = Script> {
    const ROWS: usize = 100;
    FONTS.into_iter().flat_map(|font| {
        let scalars: Vec<char> = (0..=0x10FFFF).filter_map(char::from_u32).collect();
        let scripts: Vec<Script> = scalars
            .chunks(16 * ROWS)
            .map(|rows| {
                let mut calls = vec![open(font, 512, b":", b"")];
                for row in rows.chunks(16) {
                    calls.push(paste(&row.iter().collect::<String>()));
                    calls.push(Call::Key(Key::ctrl('u')));
                }
                calls.push(Call::Key(Key::with(Held::Ctrl, KeyName::Left)));
                calls.push(Call::Cancel);
                Script::of(calls)
            })
            .collect();
        scripts
    })
}
