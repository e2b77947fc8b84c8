//! Scripts and replies, in the two spellings of docs/SCRIPT.md.

pub mod bytes;
pub mod call;
pub mod lines;
pub mod reply;
