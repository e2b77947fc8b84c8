//! Named by the search prompt, which is compiled and never opened.

use crate::error::Error;
use crate::event::EventSender;
use crate::file::File;

#[derive(Clone, Copy)]
pub(crate) enum SearchKind {
    First,
    FirstAfter(usize),
    FirstBefore(usize),
}

pub(crate) enum MatchMotion {
    NextLine,
    PreviousLine,
}

pub(crate) struct Search;

impl Search {
    pub(crate) fn new(_file: &File, _text: &str, _kind: SearchKind, _events: EventSender) -> Result<Search, Error> {
        Ok(Search)
    }
}
