//! Graphemes of ASCII text, which are its characters. Only labels such as `<07>` come here.

pub trait UnicodeSegmentation {
    fn grapheme_indices(&self, extended: bool) -> impl Iterator<Item = (usize, &str)>;
}

impl UnicodeSegmentation for str {
    fn grapheme_indices(&self, _extended: bool) -> impl Iterator<Item = (usize, &str)> {
        assert!(self.is_ascii(), "only labels are cut");
        (0..self.len()).map(|i| (i, &self[i..=i]))
    }
}
