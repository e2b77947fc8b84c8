//! Opening a prompt on a history file.

use super::Scratch;
use crate::command;
use crate::counts::Counts;
use crate::differences::Difference;
use crate::prompt::Prompt;
use crate::rules::readable::{self, is_long, MOST_DRAFTS};

/// The original's prompt with the drafts that the rules give it, and the line that the original would compare a new text with.
/// The original cuts the file into lines and loads them; lines that only it keeps are dropped.
pub fn open(label: &str, history: &[u8], scratch: &mut Scratch, counts: &mut Counts) -> (Prompt, Option<String>) {
    scratch.put(history);
    let mut prompt = scratch.lend(command::goto);
    prompt.oracle_set_label(label);
    let drafts = prompt.oracle_history_mut();
    let last = drafts.oracle_last_line().map(str::to_string);
    if drafts.oracle_lines().any(str::is_empty) {
        counts.differs(Difference::EmptyLines);
        drafts.oracle_keep(|line| !line.is_empty());
    }
    if drafts.oracle_lines().any(is_long) {
        counts.differs(Difference::LongLines);
        drafts.oracle_keep(|line| !is_long(line));
    }
    if drafts.oracle_lines().count() > MOST_DRAFTS {
        counts.differs(Difference::Drafts);
        drafts.oracle_keep_last(MOST_DRAFTS);
    }
    assert!(drafts.oracle_lines().eq(readable_lines(history)), "readable lines are those that the original read");
    (prompt, last)
}

/// The lines by the rule that history writing goes by, to hold it against the original's reading.
fn readable_lines(history: &[u8]) -> impl Iterator<Item = &str> {
    let lines: Vec<&str> = readable::lines(history).filter_map(|line| readable::read(line.text).ok()).collect();
    let extra = lines.len().saturating_sub(MOST_DRAFTS);
    lines.into_iter().skip(extra)
}
