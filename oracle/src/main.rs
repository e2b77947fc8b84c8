//! The original prompt as an oracle for scripts: see README.md.

// The original. build.sh puts its sources beside this file, with accessors appended to two of them.
#[allow(dead_code)]
mod command;
#[allow(dead_code)]
mod prompt;
#[allow(dead_code)]
mod prompt_history;
#[allow(dead_code)]
mod util;

// Stand-ins for the parts of the pager that the original leans on.
#[path = "pager/display.rs"]
mod display;
#[allow(dead_code)]
#[path = "pager/error.rs"]
mod error;
#[path = "pager/event.rs"]
mod event;
#[path = "pager/file.rs"]
mod file;
#[path = "pager/screen.rs"]
mod screen;
#[allow(dead_code)]
#[path = "pager/search.rs"]
mod search;

mod commands;
mod compare;
mod counts;
mod differences;
mod generate;
mod library;
mod rules;
mod run;
mod sample;
mod script;
mod self_check;
mod session;
mod shrink;

use std::process::ExitCode;

/// The library's frames hold whole rows and histories, and nothing says how deep they go.
const STACK: usize = 256 << 20;

fn main() -> ExitCode {
    let words: Vec<String> = std::env::args().skip(1).collect();
    let thread = std::thread::Builder::new().stack_size(STACK).spawn(move || commands::run(&words));
    // A thread that panicked has told why.
    let code = thread.expect("a thread can be made").join().unwrap_or(commands::BROKEN);
    ExitCode::from(code)
}
