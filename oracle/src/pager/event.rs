//! Named by the search prompt, which is compiled and never opened.

#[derive(Clone)]
pub(crate) struct EventSender;
