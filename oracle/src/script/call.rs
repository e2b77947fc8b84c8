//! The calls of a session, as values.

pub use unicode_width::Font;

#[derive(Clone, Copy, Debug, PartialEq, Eq, Hash, PartialOrd, Ord)]
pub enum Held {
    None,
    Ctrl,
    Alt,
    Other,
}

/// In the order of their numbers.
pub const ALL_HELD: [Held; 4] = [Held::None, Held::Ctrl, Held::Alt, Held::Other];

#[derive(Clone, Copy, Debug, PartialEq, Eq, Hash, PartialOrd, Ord)]
pub enum KeyName {
    Char,
    Enter,
    Escape,
    Backspace,
    Delete,
    Left,
    Right,
    Up,
    Down,
    Home,
    End,
    Other,
}

/// In the order of their numbers.
pub const ALL_KEYS: [KeyName; 12] = [
    KeyName::Char,
    KeyName::Enter,
    KeyName::Escape,
    KeyName::Backspace,
    KeyName::Delete,
    KeyName::Left,
    KeyName::Right,
    KeyName::Up,
    KeyName::Down,
    KeyName::Home,
    KeyName::End,
    KeyName::Other,
];

/// The code means something for a character key only; other keys carry one all the same.
#[derive(Clone, Copy, Debug, PartialEq, Eq)]
pub struct Key {
    pub held: Held,
    pub name: KeyName,
    pub code: u32,
}

impl Key {
    pub fn typed(code: u32) -> Key {
        Key { held: Held::None, name: KeyName::Char, code }
    }

    pub fn ctrl(letter: char) -> Key {
        Key { held: Held::Ctrl, name: KeyName::Char, code: letter as u32 }
    }

    pub fn alt(letter: char) -> Key {
        Key { held: Held::Alt, name: KeyName::Char, code: letter as u32 }
    }

    pub fn plain(name: KeyName) -> Key {
        Key { held: Held::None, name, code: 0 }
    }

    pub fn with(held: Held, name: KeyName) -> Key {
        Key { held, name, code: 0 }
    }
}

#[derive(Clone, Debug, PartialEq, Eq)]
pub struct Open {
    pub font: Font,
    pub line: u16,
    pub width: u16,
    pub room: u32,
    pub label: Vec<u8>,
    pub history: Vec<u8>,
}

#[derive(Clone, Debug, PartialEq, Eq)]
pub struct Finish {
    pub lines: u64,
    pub room: u32,
    pub history: Vec<u8>,
}

#[derive(Clone, Debug, PartialEq, Eq)]
pub enum Call {
    Open(Open),
    Draw,
    Key(Key),
    Paste(Vec<u8>),
    Resize(u16),
    Finish(Finish),
    Cancel,
}
