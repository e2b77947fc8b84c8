//! What becomes of a finished text: history is written, and a jump is made. The original does both on Enter.

use termwiz::input::{KeyCode, KeyEvent, Modifiers};

use super::{jump, Scratch, Session};
use crate::counts::Counts;
use crate::differences::Difference;
use crate::display::DisplayAction;
use crate::rules::readable::{self, Unreadable, MOST_KEPT};
use crate::rules::refusals::{self, BUFFER_TOO_SHORT, HISTORY_TOO_LONG, LONGEST_HISTORY, WIDEST};
use crate::script::call::Finish;
use crate::script::reply::{Jump, Written};

pub fn finish(mut session: Session, finish: &Finish, scratch: &mut Scratch, counts: &mut Counts) -> (Written, Jump) {
    let text: String = session.prompt.oracle_draft().oracle_parts().0.iter().collect();
    let (written, enter) = if finish.history.len() > LONGEST_HISTORY {
        counts.differs(Difference::LongHistory);
        // With no data folder the original saves nothing.
        (Written::Refused(HISTORY_TOO_LONG.number), session.press_enter())
    } else {
        session.write_history(finish, scratch, counts)
    };
    (written, jump::jump(enter, &text, finish.lines, counts))
}

/// The part of a history that the original writes as the rules have it: the last readable lines as they stand, with the
/// differences that stand in the way of the others.
struct Kept<'a> {
    bytes: Vec<u8>,
    last: Option<&'a str>,
    differences: Vec<Difference>,
}

fn kept(history: &[u8]) -> Kept<'_> {
    let mut differences = Vec::new();
    let mut wholes = Vec::new();
    let mut last = None;
    for line in readable::lines(history) {
        match readable::read(line.text) {
            Ok(text) => {
                wholes.push(line.whole);
                last = Some(text);
            }
            Err(Unreadable::Empty) => differences.push(Difference::EmptyLines),
            Err(Unreadable::IllFormed) => differences.push(Difference::IllFormedLines),
            Err(Unreadable::Long) => differences.push(Difference::LongLines),
        }
    }
    let extra = wholes.len().saturating_sub(MOST_KEPT);
    if extra > 0 {
        differences.push(Difference::LinesKept);
    }
    differences.sort_unstable_by_key(|&difference| difference as usize);
    differences.dedup();
    Kept { bytes: wholes[extra..].concat(), last, differences }
}

impl Session {
    fn press_enter(&mut self) -> DisplayAction {
        // Enter looks at no width.
        self.prompt.dispatch_key(KeyEvent { key: KeyCode::Enter, modifiers: Modifiers::NONE }, WIDEST)
    }

    fn write_history(&mut self, finish: &Finish, scratch: &mut Scratch, counts: &mut Counts) -> (Written, DisplayAction) {
        let kept = kept(&finish.history);
        self.compare_with(kept.last, finish, counts);
        scratch.put(&kept.bytes);
        let enter = scratch.lend(|| self.press_enter());
        let saved = scratch.read();
        // A saved text is one line more, so that the file is never as it was.
        if saved == kept.bytes {
            return (Written::Nothing, enter);
        }
        for difference in kept.differences {
            counts.differs(difference);
        }
        // The original's file has no end.
        let written = if saved.len() > refusals::lent(finish.room) {
            Written::Refused(BUFFER_TOO_SHORT.number)
        } else {
            Written::Bytes(saved.to_vec())
        };
        (written, enter)
    }

    /// The original compares the new text with the last line that it saw when it opened the file, and here it is compared with
    /// the last readable line of the history that is written anew. Where that makes a difference the original is given this line.
    fn compare_with(&mut self, last: Option<&str>, finish: &Finish, counts: &mut Counts) {
        let drafts = self.prompt.oracle_history_mut();
        let spelling = drafts.oracle_spelling();
        if spelling.is_empty() {
            return;
        }
        let is_last = |line: Option<&str>| line == Some(spelling.as_str());
        let ruled = is_last(last);
        if is_last(self.opening_last.as_deref()) != ruled {
            let is_same_history = finish.history == self.opening_history;
            counts.differs(match self.opening_last.as_deref() {
                Some("") if is_same_history => Difference::EmptyLines,
                Some(_) if is_same_history => Difference::LongLines,
                _ => Difference::ComparedWith,
            });
        }
        // The drafts were given the last readable line at opening, so that this one is asked too.
        if is_last(drafts.oracle_last_line()) != ruled {
            drafts.oracle_set_last_line(last.map(str::to_string));
        }
    }
}
