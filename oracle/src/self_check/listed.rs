//! What docs/DIFFERENCES.md says of the original, asked of the original as it is: nothing here goes through the session.

use termwiz::input::{KeyCode, KeyEvent, Modifiers};
use termwiz::surface::change::Change;

use super::Checks;
use crate::command;
use crate::display::DisplayAction;
use crate::prompt::Prompt;
use crate::screen::Screen;
use crate::script::call::Font;
use crate::session::Scratch;

const WIDTH: usize = 40;

fn press(prompt: &mut Prompt, modifiers: Modifiers, key: KeyCode) -> DisplayAction {
    prompt.dispatch_key(KeyEvent { key, modifiers }, WIDTH)
}

fn text(prompt: &Prompt) -> String {
    prompt.oracle_draft().oracle_parts().0.iter().collect()
}

/// A prompt of the original on a history.
fn opened(scratch: &mut Scratch, history: &[u8]) -> Prompt {
    scratch.put(history);
    scratch.lend(command::goto)
}

/// The history after a text was typed and Enter pressed.
fn saved(scratch: &mut Scratch, opening: &[u8], present: &[u8], typed: &str) -> Vec<u8> {
    let mut prompt = opened(scratch, opening);
    scratch.put(present);
    prompt.paste(typed, WIDTH);
    scratch.lend(|| press(&mut prompt, Modifiers::NONE, KeyCode::Enter));
    scratch.read().to_vec()
}

fn line_jumped_to(typed: &str, lines: usize) -> Option<usize> {
    let mut prompt = command::goto();
    prompt.paste(typed, WIDTH);
    let DisplayAction::Run(mut run) = press(&mut prompt, Modifiers::NONE, KeyCode::Enter) else { return None };
    let mut screen = Screen::of(lines);
    run(&mut screen).ok()?;
    screen.scrolled_to
}

pub fn check(checks: &mut Checks) {
    unicode_width::set_font(Font::Foyer);
    let scratch = &mut Scratch::new();

    checks.equal("original: \"-10\" in 10 lines is the largest number", line_jumped_to("-10", 10), Some(usize::MAX));
    checks.equal("original: \"1\" in no lines is the largest number", line_jumped_to("1", 0), Some(usize::MAX));
    checks.equal("original: \"100%\" in no lines is the largest number", line_jumped_to("100%", 0), Some(usize::MAX));
    checks.equal("original: \"1\" in 2^32 + 1 lines is line 0", line_jumped_to("1", (1 << 32) + 1), Some(0));

    let mut prompt = command::goto();
    prompt.paste(" ab", WIDTH);
    press(&mut prompt, Modifiers::CTRL, KeyCode::Char('w'));
    checks.equal("original: \" ab\", Ctrl+W leaves nothing", text(&prompt).as_str(), "");

    let mut prompt = command::goto();
    let action = press(&mut prompt, Modifiers::NONE, KeyCode::Char('\u{7}'));
    let is_sent = matches!(action, DisplayAction::Change(Change::Text(sent)) if sent == "\u{7}");
    checks.equal("original: 07 typed at the end is sent as it is", is_sent, true);

    unicode_width::set_font(Font::Counter);
    for (typed, label) in [("\u{1F300}", "<U+1F300>"), ("\u{10FFFF}", "<U+10FFFF>")] {
        let mut prompt = command::goto();
        prompt.paste(typed, WIDTH);
        let mut changes = Vec::new();
        prompt.render(&mut changes, 0, WIDTH);
        checks.equal(&format!("original: {label} counts 8 columns"), prompt.cursor_position(), 15 + 8);
        checks.equal(&format!("original: {label} is drawn whole"), changes.contains(&Change::Text(label.to_string())), true);
    }
    unicode_width::set_font(Font::Foyer);

    let mut prompt = command::goto();
    prompt.paste(&"a".repeat(257), WIDTH);
    checks.equal("original: a draft holds 257 characters", text(&prompt).len(), 257);

    let drafts = |scratch: &mut Scratch, history: &[u8]| opened(scratch, history).oracle_history().oracle_count() - 1;
    checks.equal("original: an empty line is a draft", drafts(scratch, b"a\n\nb\n"), 3);
    checks.equal("original: an empty line is written again", saved(scratch, b"a\n\nb\n", b"a\n\nb\n", "c"), b"a\n\nb\nc\n".to_vec());
    checks.equal("original: after an empty line \"a\" is added", saved(scratch, b"a\n\n", b"a\n\n", "a"), b"a\n\na\n".to_vec());
    checks.equal("original: 32 lines are 32 drafts", drafts(scratch, &b"a\n".repeat(32)), 32);
    let lines = |bytes: Vec<u8>| bytes.split_inclusive(|&byte| byte == b'\n').count();
    for (before, after) in [(31, 32), (999, 1_000), (1_000, 1_000), (1_001, 1_000)] {
        let history = b"a\n".repeat(before);
        let what = format!("original: {before} lines and a new one are {after}");
        checks.equal(&what, lines(saved(scratch, &history, &history, "b")), after);
    }
    checks.equal("original: an ill-formed line is dropped in reading", drafts(scratch, b"a\n\xFF\nb\n"), 2);
    checks.equal("original: a line of 257 letters is a draft", drafts(scratch, &[b'a'; 257]), 1);
    checks.equal("original: 65,537 bytes are read", drafts(scratch, &b"abc\n".repeat(16_385)[..65_537]), 16_385);
    let shared = saved(scratch, b"a\n", b"a\nb\n", "a");
    checks.equal("original: \"a\" is compared with the last line at opening", shared, b"a\nb\n".to_vec());

    // Last, since what the original began to write stays behind in the folder and bars the way.
    let unsaved = saved(scratch, b"a\n\xFF\nb\n", b"a\n\xFF\nb\n", "c");
    checks.equal("original: an ill-formed line ends writing, and nothing is saved", unsaved, b"a\n\xFF\nb\n".to_vec());
    checks.equal("original: nor is anything later in the same process", saved(scratch, b"a\n", b"a\n", "c"), b"a\n".to_vec());
}
