//! A session: the original's prompt, driven call by call, with a recorder's bytes for a glass.
//!
//! Each call is first held against the refusals, which the original does not have. Then the original is called. Then come the
//! listed differences: where one of them is met, the ruled answer is taken and the original's draft is set to the ruled one, so
//! that the session goes on in step.

mod finishing;
mod glass;
mod jump;
mod keys;
mod opening;
mod scratch;

pub use scratch::Scratch;

use termwiz::surface::change::Change;

use crate::counts::Counts;
use crate::differences::Difference;
use crate::display::DisplayAction;
use crate::prompt::Prompt;
use crate::rules::{columns, refusals};
use crate::script::call::{Finish, Held, Key, Open};
use crate::script::reply::{Answer, Draft, Jump, Refusal, Written};
use glass::Recorder;

pub struct Session {
    prompt: Prompt,
    label_len: usize,
    recorder: Recorder,
    /// The offset of each draft by the rules, as it was when the draft was last in hand.
    offsets: Vec<usize>,
    /// The history at opening, and the line of it that the original compares a new text with.
    opening_history: Vec<u8>,
    opening_last: Option<String>,
}

impl Session {
    /// Opens a prompt, and makes a recorder; gives its first bytes too.
    pub fn open(open: &Open, scratch: &mut Scratch, counts: &mut Counts) -> Result<(Session, Vec<u8>), Refusal> {
        refusals::open(open).inspect_err(|&refusal| {
            if refusal == refusals::HISTORY_TOO_LONG {
                counts.differs(Difference::LongHistory);
            }
        })?;
        unicode_width::set_font(open.font);
        let label = std::str::from_utf8(&open.label).expect("a label that is not refused is ASCII");
        let (prompt, opening_last) = opening::open(label, &open.history, scratch, counts);
        let drafts = prompt.oracle_history().oracle_count();
        let (recorder, first) = Recorder::new(open.line, open.width, refusals::lent(open.room));
        let session = Session {
            prompt,
            label_len: label.len(),
            recorder,
            offsets: vec![0; drafts],
            opening_history: open.history.clone(),
            opening_last,
        };
        Ok((session, first))
    }

    pub fn draft(&self) -> Draft {
        let (text, place, offset) = self.prompt.oracle_draft().oracle_parts();
        Draft { text: text.iter().map(|&c| c as u32).collect(), place: place as u16, offset: offset as u16 }
    }

    /// The columns for the text.
    fn room(&self) -> usize {
        self.recorder.width() - self.label_len - 4
    }

    fn can_draw_at(&self, width: usize) -> Result<(), Refusal> {
        refusals::drawing(self.label_len, width, self.recorder.spare())
    }

    pub fn draw(&mut self, counts: &mut Counts) -> Result<Vec<u8>, Refusal> {
        self.can_draw_at(self.recorder.width())?;
        let mut record = Vec::new();
        self.render(&mut record, counts);
        Ok(record)
    }

    pub fn resize(&mut self, width: u16, counts: &mut Counts) -> Result<Vec<u8>, Refusal> {
        self.can_draw_at(width as usize)?;
        let mut record = Vec::new();
        self.recorder.reshape(width, &mut record);
        let room = self.room();
        // The original clamps at the next key only.
        self.prompt.oracle_draft_mut().oracle_clamp(room);
        self.settle_offset(counts);
        self.render(&mut record, counts);
        Ok(record)
    }

    pub fn paste(&mut self, bytes: &[u8], counts: &mut Counts) -> Result<(Answer, Vec<u8>), Refusal> {
        self.can_draw_at(self.recorder.width())?;
        let text = refusals::pasted(bytes)?;
        self.has_room_for(text.chars().count(), counts)?;
        let action = self.prompt.paste(text, self.recorder.width());
        assert!(matches!(action, DisplayAction::RefreshPrompt), "a paste is drawn");
        self.settle_offset(counts);
        let mut record = Vec::new();
        self.render(&mut record, counts);
        Ok((Answer::Redraw, record))
    }

    pub fn key(&mut self, key: &Key, counts: &mut Counts) -> Result<(Answer, Vec<u8>), Refusal> {
        self.can_draw_at(self.recorder.width())?;
        let character = refusals::character(key).inspect_err(|_| counts.differs(Difference::Codes))?;
        let typed = character.filter(|_| key.held == Held::None);
        if typed.is_some() {
            self.has_room_for(1, counts)?;
        }
        let lost = keys::goes_back_a_word(key).then(|| self.first_space_that_is_lost()).flatten();

        let action = self.prompt.dispatch_key(keys::event(key, character), self.recorder.width());

        if let Some(space) = lost {
            self.keep_first_space(space, key, counts);
        }
        let mut record = Vec::new();
        let mut answer = match action {
            DisplayAction::None => Answer::Nothing,
            DisplayAction::RefreshPrompt => Answer::Redraw,
            DisplayAction::Change(Change::Text(letter)) => {
                self.recorder.text(&letter, &mut record);
                Answer::Letter
            }
            DisplayAction::Run(_) => return Ok((self.finish_or_cancel(), record)),
            _ => panic!("an answer that no key has"),
        };
        if let Some(c) = typed {
            answer = self.settle_letter(c, answer, counts);
        }
        self.settle_offset(counts);
        if answer == Answer::Redraw {
            record.clear();
            self.render(&mut record, counts);
        } else {
            self.recorder.gain(&record);
        }
        Ok((answer, record))
    }

    pub fn finish(self, finish: &Finish, scratch: &mut Scratch, counts: &mut Counts) -> (Written, Jump) {
        finishing::finish(self, finish, scratch, counts)
    }

    fn has_room_for(&self, added: usize, counts: &mut Counts) -> Result<(), Refusal> {
        let len = self.prompt.oracle_draft().oracle_parts().0.len();
        refusals::insertion(len, added).inspect_err(|_| counts.differs(Difference::DraftLength))
    }

    /// Enter takes the prompt's closure along, and Escape does not. Here a key changes nothing then, so the closure comes back.
    fn finish_or_cancel(&mut self) -> Answer {
        if self.prompt.oracle_has_run() {
            return Answer::Cancel;
        }
        self.prompt.oracle_take_run_of(crate::command::goto());
        Answer::Finish
    }

    /// The white space at the front of the draft that the original would walk over: it never looks at the first character
    /// when it goes back over a word.
    fn first_space_that_is_lost(&self) -> Option<char> {
        let (text, place, _) = self.prompt.oracle_draft().oracle_parts();
        let (first, rest) = text[..place].split_first()?;
        let word_end = rest.iter().rposition(|c| !c.is_whitespace())?;
        let is_one_word = rest[..word_end].iter().all(|c| !c.is_whitespace());
        (first.is_whitespace() && is_one_word).then_some(*first)
    }

    fn keep_first_space(&mut self, space: char, key: &Key, counts: &mut Counts) {
        counts.differs(Difference::WordStart);
        let offset_before = self.offsets[self.prompt.oracle_history().oracle_in_hand()];
        let room = self.room();
        let draft = self.prompt.oracle_draft_mut();
        assert_eq!(draft.oracle_parts().1, 0, "the original goes over the first space");
        if keys::removes(key) {
            draft.oracle_give_back(space);
        } else {
            draft.oracle_set_place(1);
        }
        draft.oracle_set_offset(offset_before);
        draft.oracle_clamp(room);
    }

    /// A character with a label is drawn, and not sent as it is.
    fn settle_letter(&mut self, typed: char, answer: Answer, counts: &mut Counts) -> Answer {
        let (text, place, _) = self.prompt.oracle_draft().oracle_parts();
        let offset_before = self.offsets[self.prompt.oracle_history().oracle_in_hand()];
        let ruled = if columns::is_letter(text, place, offset_before, self.room()) { Answer::Letter } else { Answer::Redraw };
        if ruled != answer {
            if columns::has_label(typed) {
                counts.differs(Difference::LabelTyped);
            } else {
                assert!(text.iter().any(|&c| columns::is_miscounted(c)), "{text:?}: {answer:?} there, {ruled:?} here");
                counts.differs(Difference::ColumnsOfLabel);
            }
        }
        ruled
    }

    /// The offset is the original's, but for drafts with labels that it counts too few columns for.
    fn settle_offset(&mut self, counts: &mut Counts) {
        let in_hand = self.prompt.oracle_history().oracle_in_hand();
        let room = self.room();
        let (text, place, offset) = self.prompt.oracle_draft().oracle_parts();
        let ruled = columns::clamped(text, place, self.offsets[in_hand], room);
        if ruled != offset {
            assert!(text.iter().any(|&c| columns::is_miscounted(c)), "{text:?}: offset {offset} there, {ruled} here");
            counts.differs(Difference::ColumnsOfLabel);
            self.prompt.oracle_draft_mut().oracle_set_offset(ruled);
        }
        self.offsets[in_hand] = ruled;
    }

    fn cursor_column(&self, counts: &mut Counts) -> usize {
        let (text, place, offset) = self.prompt.oracle_draft().oracle_parts();
        let shown = &text[offset..place];
        let ruled = self.label_len + 4 + columns::measured(shown);
        let column = self.prompt.cursor_position();
        if ruled != column {
            assert!(shown.iter().any(|&c| columns::is_miscounted(c)), "{text:?}: column {column} there, {ruled} here");
            counts.differs(Difference::ColumnsOfLabel);
        }
        ruled
    }

    /// The drawing is the original's: it measures what it draws by the labels themselves. The cursor is placed after it.
    fn render(&mut self, record: &mut Vec<u8>, counts: &mut Counts) {
        let width = self.recorder.width();
        let mut changes = Vec::new();
        self.prompt.render(&mut changes, self.recorder.line(), width);
        for change in &changes {
            self.recorder.change(change, record);
        }
        let cursor = self.cursor_column(counts).min(width - 1);
        self.recorder.place(cursor, record);
        self.recorder.gain(record);
    }
}
