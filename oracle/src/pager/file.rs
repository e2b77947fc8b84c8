//! A listing, of which the jump asks only how many lines it has.

pub(crate) trait FileInfo {
    fn lines(&self) -> usize;
}

pub(crate) struct File {
    pub(crate) lines: usize,
}

impl FileInfo for File {
    fn lines(&self) -> usize {
        self.lines
    }
}
