//! The commands of the program.

use std::fs;
use std::io::{self, BufRead};
use std::path::Path;

use crate::compare;
use crate::generate::Script;
use crate::library;
use crate::run::Runner;
use crate::sample;
use crate::script::lines::{call_line, hex, read_call, reply_line};
use crate::self_check;

const WELL: u8 = 0;
const DIFFERS: u8 = 1;
pub const BROKEN: u8 = 2;
const NOT_COMPARED: u8 = 3;

const USAGE: &str = "\
oracle compare [CALLS [SEED]]    compare the library with the original on about so many calls
oracle dry [CALLS [SEED]]        the same scripts on the original alone
oracle self-check                check the oracle on cases worked by hand, and on planted faults
oracle sample SCRIPT REPLIES     write a fixed script and the replies to it, as lines
oracle replies                   answer the script, as lines, on standard input
oracle lines FILE                spell the script in a file of bytes as lines

With ORACLE_LAST=FILE, compare writes each script to a file before it is run, for a library that ends the program.";

/// Enough for all lists of four keys.
const CALLS: u64 = 12_000_000;
const SEED: u64 = 1;

pub fn run(words: &[String]) -> u8 {
    let words: Vec<&str> = words.iter().map(String::as_str).collect();
    match words[..] {
        ["compare", ref numbers @ ..] => with_numbers(numbers, |calls, seed| match library::library() {
            Some(mut library) => {
                if compare::compare(&mut *library, seed, calls) {
                    WELL
                } else {
                    DIFFERS
                }
            }
            None => {
                eprintln!("oracle: the library is not linked, so there is nothing to compare; build.sh takes its folder");
                NOT_COMPARED
            }
        }),
        ["dry", ref numbers @ ..] => with_numbers(numbers, |calls, seed| {
            compare::dry(seed, calls);
            WELL
        }),
        ["self-check"] => {
            if self_check::run() {
                WELL
            } else {
                DIFFERS
            }
        }
        ["sample", script, replies] => match sample::write(Path::new(script), Path::new(replies)) {
            Ok(told) => {
                println!("{told}");
                WELL
            }
            Err(fault) => {
                eprintln!("oracle: {fault}");
                BROKEN
            }
        },
        ["replies"] => answer_lines(),
        ["lines", file] => spell(Path::new(file)),
        _ => usage(),
    }
}

fn usage() -> u8 {
    eprintln!("{USAGE}");
    BROKEN
}

/// How many calls, and the seed.
fn with_numbers(words: &[&str], run: impl FnOnce(u64, u64) -> u8) -> u8 {
    let Ok(numbers) = words.iter().map(|word| word.parse()).collect::<Result<Vec<u64>, _>>() else { return usage() };
    match numbers[..] {
        [] => run(CALLS, SEED),
        [calls] => run(calls, SEED),
        [calls, seed] => run(calls, seed),
        _ => usage(),
    }
}

fn spell(file: &Path) -> u8 {
    let bytes = match fs::read(file) {
        Ok(bytes) => bytes,
        Err(error) => {
            eprintln!("oracle: {}: {error}", file.display());
            return BROKEN;
        }
    };
    let script = Script::read(&bytes);
    for call in &script.calls {
        println!("{}", call_line(call));
    }
    if !script.tail.is_empty() {
        println!("# and what is no call: {}", hex(&script.tail));
    }
    WELL
}

fn answer_lines() -> u8 {
    let mut runner = Runner::new();
    for line in io::stdin().lock().lines() {
        let Ok(line) = line else { return BROKEN };
        if line.is_empty() || line.starts_with('#') {
            continue;
        }
        match read_call(&line).and_then(|call| runner.call(&call)) {
            Some(reply) => println!("{}", reply_line(&reply)),
            None => println!("broken"),
        }
    }
    WELL
}
