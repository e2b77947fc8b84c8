
// ---- Appended by oracle/build.sh: ways to read and set what is private above. ----

impl PromptHistory {
    /// Which entry is in hand.
    pub(crate) fn oracle_in_hand(&self) -> usize {
        self.active_index
    }

    pub(crate) fn oracle_count(&self) -> usize {
        self.entries.len()
    }

    /// The remembered lines as they stood in the file.
    pub(crate) fn oracle_lines(&self) -> impl Iterator<Item = &str> {
        self.entries.iter().filter_map(|entry| entry.stored.as_deref())
    }

    /// Drops remembered lines. Meant for a history that was just opened: the new entry is in hand then.
    pub(crate) fn oracle_keep(&mut self, mut keep: impl FnMut(&str) -> bool) {
        self.entries.retain(|entry| entry.stored.as_deref().is_none_or(&mut keep));
        self.active_index = self.entries.len() - 1;
    }

    /// Drops all but the last remembered lines, likewise.
    pub(crate) fn oracle_keep_last(&mut self, most: usize) {
        let extra = (self.entries.len() - 1).saturating_sub(most);
        self.entries.drain(..extra);
        self.active_index = self.entries.len() - 1;
    }

    /// What the entry in hand would be saved as.
    pub(crate) fn oracle_spelling(&self) -> String {
        self.entries[self.active_index].save().unwrap_or_default()
    }

    /// The line that a text to be saved is compared with.
    pub(crate) fn oracle_last_line(&self) -> Option<&str> {
        let before_new = self.entries.len().checked_sub(2)?;
        self.entries[before_new].stored.as_deref()
    }

    pub(crate) fn oracle_set_last_line(&mut self, line: Option<String>) {
        if self.entries.len() > 1 {
            let before_new = self.entries.len() - 2;
            self.entries[before_new].stored = line;
        } else if let Some(line) = line {
            self.entries.insert(0, HistoryEntry::load(line));
            self.active_index += 1;
        }
    }
}
