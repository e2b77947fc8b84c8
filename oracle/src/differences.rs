//! The differences from the original that docs/DIFFERENCES.md lists and that a script can show. Each is met at one place of the
//! session, where the ruled answer is taken; a reply that differs in any other way is a fault.

#[derive(Clone, Copy, Debug, PartialEq, Eq)]
pub enum Difference {
    JumpToMinusLines,
    JumpWithoutLines,
    LongListing,
    PercentageOfLongListing,
    ColumnsOfLabel,
    WordStart,
    LabelTyped,
    DraftLength,
    Codes,
    EmptyLines,
    Drafts,
    LinesKept,
    IllFormedLines,
    LongLines,
    LongHistory,
    ComparedWith,
}

use Difference::*;

/// With their names in docs/DIFFERENCES.md.
pub const ALL: [(Difference, &str); 16] = [
    (JumpToMinusLines, "jump, n = -lines"),
    (JumpWithoutLines, "jump, no lines"),
    (LongListing, "jump, long listings"),
    (PercentageOfLongListing, "jump, percentages of long listings"),
    (ColumnsOfLabel, "columns of a label"),
    (WordStart, "word start"),
    (LabelTyped, "a character with a label, typed at the end"),
    (DraftLength, "length of a draft"),
    (Codes, "codes"),
    (EmptyLines, "history, empty lines"),
    (Drafts, "history, drafts"),
    (LinesKept, "history, lines kept"),
    (IllFormedLines, "history, ill-formed lines"),
    (LongLines, "history, long lines"),
    (LongHistory, "history, long histories"),
    (ComparedWith, "history, what the new text is compared with"),
];
