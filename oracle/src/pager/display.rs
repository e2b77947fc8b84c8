//! What the prompt answers a key with.

use termwiz::surface::change::Change;

use crate::error::Error;
use crate::screen::Screen;

type RunFn = dyn FnMut(&mut Screen) -> Result<DisplayAction, Error>;

/// Only the actions that the prompt and the jump name.
pub(crate) enum DisplayAction {
    None,
    Run(Box<RunFn>),
    Change(Change),
    Render,
    RefreshPrompt,
    Quit,
}
