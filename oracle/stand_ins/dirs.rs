//! The folder that history files stand in: a scratch folder while history is read or saved, and none at any other time.

use std::cell::RefCell;
use std::path::PathBuf;

thread_local! {
    static FOLDER: RefCell<Option<PathBuf>> = const { RefCell::new(None) };
}

/// From here on this is the thread's data folder.
pub fn set_data_dir(folder: Option<PathBuf>) {
    FOLDER.with(|chosen| *chosen.borrow_mut() = folder);
}

pub fn data_dir() -> Option<PathBuf> {
    FOLDER.with(|chosen| chosen.borrow().clone())
}
