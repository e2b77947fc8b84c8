//! A screen that notes what the jump asks of it.

use crate::file::File;
use crate::search::{MatchMotion, Search};

pub(crate) struct Screen {
    pub(crate) file: File,
    pub(crate) error: Option<String>,
    pub(crate) scrolled_to: Option<usize>,
    pub(crate) prompt_cleared: bool,
}

impl Screen {
    pub(crate) fn of(lines: usize) -> Screen {
        Screen {
            file: File { lines },
            error: None,
            scrolled_to: None,
            prompt_cleared: false,
        }
    }

    pub(crate) fn clear_prompt(&mut self) {
        self.prompt_cleared = true;
    }

    pub(crate) fn scroll_to(&mut self, line: usize) {
        self.scrolled_to = Some(line);
    }

    // Named by the search prompt, which is never opened.

    pub(crate) fn refresh_matched_lines(&mut self) {}

    pub(crate) fn move_match(&mut self, _motion: MatchMotion) {}

    pub(crate) fn set_search(&mut self, _search: Option<Search>) {}
}
