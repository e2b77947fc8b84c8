//! The folder that the original finds its history file in.

use std::fs;
use std::path::PathBuf;

/// A folder of its own for each run, which goes with it.
pub struct Scratch {
    folder: PathBuf,
    file: PathBuf,
    /// What the file holds; an empty history is no file.
    holds: Vec<u8>,
}

impl Scratch {
    pub fn new() -> Scratch {
        let shared_memory = PathBuf::from("/dev/shm");
        let base = if shared_memory.is_dir() { shared_memory } else { std::env::temp_dir() };
        let folder = (0..)
            .map(|i| base.join(format!("jomnoas-oracle-{}-{i}", std::process::id())))
            .find(|folder| fs::create_dir(folder).is_ok())
            .expect("a scratch folder");
        let histories = folder.join("streampager").join("history");
        fs::create_dir_all(&histories).expect("a scratch folder");
        Scratch { folder, file: histories.join("goto.history"), holds: Vec::new() }
    }

    pub fn put(&mut self, history: &[u8]) {
        if history == self.holds {
            return;
        }
        if history.is_empty() {
            fs::remove_file(&self.file).expect("the history file can be removed");
        } else {
            fs::write(&self.file, history).expect("the history file can be written");
        }
        self.holds = history.to_vec();
    }

    /// What the file holds after the original had it.
    pub fn read(&mut self) -> &[u8] {
        self.holds = fs::read(&self.file).unwrap_or_default();
        &self.holds
    }

    /// Runs something with this as the data folder.
    pub fn lend<R>(&self, run: impl FnOnce() -> R) -> R {
        dirs::set_data_dir(Some(self.folder.clone()));
        let result = run();
        dirs::set_data_dir(None);
        result
    }
}

impl Drop for Scratch {
    fn drop(&mut self) {
        let _ = fs::remove_dir_all(&self.folder);
    }
}
