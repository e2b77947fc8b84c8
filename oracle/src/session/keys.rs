//! Keys as termwiz has them.

use termwiz::input::{KeyCode, KeyEvent, Modifiers};

use crate::script::call::{Held, Key, KeyName};

/// Choices of modifiers, and keys, that mean nothing to the prompt. Which one is sent goes by the key's code.
const OTHER_MODIFIERS: [Modifiers; 4] = [
    Modifiers::SHIFT,
    Modifiers::CTRL.with(Modifiers::ALT),
    Modifiers::CTRL.with(Modifiers::SHIFT),
    Modifiers::ALT.with(Modifiers::SHIFT),
];
const OTHER_KEYS: [KeyCode; 5] =
    [KeyCode::PageUp, KeyCode::PageDown, KeyCode::Insert, KeyCode::Tab, KeyCode::Function(1)];

fn pick<T: Copy>(choices: &[T], code: u32) -> T {
    choices[code as usize % choices.len()]
}

/// `character` is there for a character key.
pub fn event(key: &Key, character: Option<char>) -> KeyEvent {
    let modifiers = match key.held {
        Held::None => Modifiers::NONE,
        Held::Ctrl => Modifiers::CTRL,
        Held::Alt => Modifiers::ALT,
        Held::Other => pick(&OTHER_MODIFIERS, key.code),
    };
    let code = match key.name {
        KeyName::Char => KeyCode::Char(character.expect("a character key carries a character")),
        KeyName::Enter => KeyCode::Enter,
        KeyName::Escape => KeyCode::Escape,
        KeyName::Backspace => KeyCode::Backspace,
        KeyName::Delete => KeyCode::Delete,
        KeyName::Left => KeyCode::LeftArrow,
        KeyName::Right => KeyCode::RightArrow,
        KeyName::Up => KeyCode::UpArrow,
        KeyName::Down => KeyCode::DownArrow,
        KeyName::Home => KeyCode::Home,
        KeyName::End => KeyCode::End,
        KeyName::Other => pick(&OTHER_KEYS, key.code),
    };
    KeyEvent { key: code, modifiers }
}

/// Ctrl+W and Alt+Backspace.
pub fn removes(key: &Key) -> bool {
    match (key.held, key.name) {
        (Held::Ctrl, KeyName::Char) => key.code == 'w' as u32,
        (Held::Alt, KeyName::Backspace) => true,
        _ => false,
    }
}

/// The keys that go back to the word start: these two, and Ctrl+Left and Alt+B, which only move.
pub fn goes_back_a_word(key: &Key) -> bool {
    let moves = match (key.held, key.name) {
        (Held::Ctrl, KeyName::Left) => true,
        (Held::Alt, KeyName::Char) => key.code == 'b' as u32,
        _ => false,
    };
    moves || removes(key)
}
