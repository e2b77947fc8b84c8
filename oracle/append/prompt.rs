
// ---- Appended by oracle/build.sh: ways to read and set what is private above. ----

impl PromptState {
    /// The text, the place and the offset.
    pub(crate) fn oracle_parts(&self) -> (&[char], usize, usize) {
        (&self.value, self.position, self.offset)
    }

    pub(crate) fn oracle_set_offset(&mut self, offset: usize) {
        self.offset = offset;
    }

    /// Gives a draft its first character back, with the place after it.
    pub(crate) fn oracle_give_back(&mut self, first: char) {
        self.value.insert(0, first);
        self.position = 1;
    }

    pub(crate) fn oracle_set_place(&mut self, place: usize) {
        self.position = place;
    }

    pub(crate) fn oracle_clamp(&mut self, columns: usize) {
        self.clamp_offset(columns);
    }
}

impl Prompt {
    pub(crate) fn oracle_set_label(&mut self, label: &str) {
        self.prompt = label.to_string();
    }

    pub(crate) fn oracle_draft(&self) -> &PromptState {
        self.state()
    }

    pub(crate) fn oracle_draft_mut(&mut self) -> &mut PromptState {
        self.state_mut()
    }

    pub(crate) fn oracle_history(&self) -> &PromptHistory {
        &self.history
    }

    pub(crate) fn oracle_history_mut(&mut self) -> &mut PromptHistory {
        &mut self.history
    }

    /// Whether the closure is still there that Enter hands out.
    pub(crate) fn oracle_has_run(&self) -> bool {
        self.run.is_some()
    }

    pub(crate) fn oracle_take_run_of(&mut self, other: Prompt) {
        self.run = other.run;
    }
}
