//! How often each call, key, answer, refusal and listed difference occurred.

use std::fmt::Write;

use crate::differences::{self, Difference};
use crate::script::call::{Call, Held, Key, KeyName};
use crate::script::reply::{Jump, Reply, Rest, Written, ALL_ANSWERS};

const CALLS: [&str; 7] = ["open", "draw", "key", "paste", "resize", "finish", "cancel"];

fn call_index(call: &Call) -> usize {
    match call {
        Call::Open(_) => 0,
        Call::Draw => 1,
        Call::Key(_) => 2,
        Call::Paste(_) => 3,
        Call::Resize(_) => 4,
        Call::Finish(_) => 5,
        Call::Cancel => 6,
    }
}

/// The keys that mean something, and the letters that do with Ctrl and Alt.
const PLAIN_KEYS: [(KeyName, &str); 11] = [
    (KeyName::Char, "a character"),
    (KeyName::Enter, "Enter"),
    (KeyName::Escape, "Escape"),
    (KeyName::Backspace, "Backspace"),
    (KeyName::Delete, "Delete"),
    (KeyName::Left, "Left"),
    (KeyName::Right, "Right"),
    (KeyName::Up, "Up"),
    (KeyName::Down, "Down"),
    (KeyName::Home, "Home"),
    (KeyName::End, "End"),
];
const HELD_KEYS: [(Held, KeyName, &str); 3] = [
    (Held::Ctrl, KeyName::Left, "Ctrl+Left"),
    (Held::Ctrl, KeyName::Right, "Ctrl+Right"),
    (Held::Alt, KeyName::Backspace, "Alt+Backspace"),
];
pub const CTRL_LETTERS: &str = "jmchdwfbkueat";
pub const ALT_LETTERS: &str = "dfb";

const CTRL_AT: usize = PLAIN_KEYS.len() + HELD_KEYS.len();
const ALT_AT: usize = CTRL_AT + CTRL_LETTERS.len();
const IGNORED_AT: usize = ALT_AT + ALT_LETTERS.len();
const KEYS: usize = IGNORED_AT + 1;

fn letter_at(letters: &str, code: u32) -> Option<usize> {
    letters.chars().position(|c| c as u32 == code)
}

fn key_index(key: &Key) -> usize {
    let found = match (key.held, key.name) {
        (Held::None, name) => PLAIN_KEYS.iter().position(|&(k, _)| k == name),
        (Held::Ctrl, KeyName::Char) => letter_at(CTRL_LETTERS, key.code).map(|i| CTRL_AT + i),
        (Held::Alt, KeyName::Char) => letter_at(ALT_LETTERS, key.code).map(|i| ALT_AT + i),
        (held, name) => {
            HELD_KEYS.iter().position(|&(h, k, _)| h == held && k == name).map(|i| PLAIN_KEYS.len() + i)
        }
    };
    found.unwrap_or(IGNORED_AT)
}

fn key_name(index: usize) -> String {
    let letter = |letters: &str, at: usize| letters[at..=at].to_uppercase();
    if index < PLAIN_KEYS.len() {
        PLAIN_KEYS[index].1.to_string()
    } else if index < CTRL_AT {
        HELD_KEYS[index - PLAIN_KEYS.len()].2.to_string()
    } else if index < ALT_AT {
        format!("Ctrl+{}", letter(CTRL_LETTERS, index - CTRL_AT))
    } else if index < IGNORED_AT {
        format!("Alt+{}", letter(ALT_LETTERS, index - ALT_AT))
    } else {
        "any other".to_string()
    }
}

const LAST_REFUSAL: usize = 24;
const REFUSED_AT: usize = ALL_ANSWERS.len();

/// What can be refused: the calls, and what finish does.
const REFUSERS: [&str; 9] = ["open", "draw", "key", "paste", "resize", "finish", "cancel", "history writing", "jump"];
const HISTORY_WRITING: usize = 7;
const JUMP: usize = 8;

/// Which of them can be refused with what.
const REFUSABLE: [(usize, &[usize]); 14] = [
    (11, &[0]),
    (12, &[0, HISTORY_WRITING]),
    (13, &[0, 1, 2, 3, 4]),
    (14, &[1, 2, 3, 4]),
    (15, &[2]),
    (16, &[3]),
    (17, &[2, 3]),
    (18, &[0, HISTORY_WRITING]),
    (19, &[JUMP]),
    (20, &[JUMP]),
    (21, &[JUMP]),
    (22, &[JUMP]),
    (23, &[JUMP]),
    (24, &[JUMP]),
];

const HISTORY_ENDS: [&str; 2] = ["nothing to add", "written"];
const JUMP_ENDS: [&str; 3] = ["quit", "stay", "line"];

#[derive(Clone, Default)]
pub struct Counts {
    pub scripts: u64,
    pub calls: u64,
    /// Scripts that broke off, and ones whose replies did not fit.
    pub broken: u64,
    pub cut_short: u64,
    by_call: [u64; CALLS.len()],
    /// For each key, how often it was answered with each answer, and refused.
    keys: [[u64; REFUSED_AT + 1]; KEYS],
    answers: [u64; REFUSED_AT],
    /// For each refusal, how often each of `REFUSERS` told it.
    refusals: [[u64; REFUSERS.len()]; LAST_REFUSAL + 1],
    history: [u64; HISTORY_ENDS.len()],
    jumps: [u64; JUMP_ENDS.len()],
    differences: [u64; differences::ALL.len()],
}

/// What occurred at all, with its count.
fn named<'a, N: std::fmt::Display + 'a>(counts: impl Iterator<Item = (&'a N, u64)>) -> String {
    counts.filter(|&(_, count)| count > 0).fold(String::new(), |mut words, (name, count)| {
        let _ = write!(words, "  {name} {count}");
        words
    })
}

impl Counts {
    pub fn differs(&mut self, difference: Difference) {
        self.differences[difference as usize] += 1;
    }

    pub fn enter(&mut self, call: &Call, reply: &Reply) {
        self.calls += 1;
        self.by_call[call_index(call)] += 1;
        let Reply::Said(said, rest) = reply else { return };
        let column = match said {
            Ok(answer) => {
                self.answers[*answer as usize] += 1;
                *answer as usize
            }
            Err(refusal) => {
                self.refusals[refusal.number as usize][call_index(call)] += 1;
                REFUSED_AT
            }
        };
        if let Call::Key(key) = call {
            self.keys[key_index(key)][column] += 1;
        }
        if let Rest::Finished(written, jump) = rest {
            match written {
                Written::Refused(number) => self.refusals[*number as usize][HISTORY_WRITING] += 1,
                Written::Nothing => self.history[0] += 1,
                Written::Bytes(_) => self.history[1] += 1,
            }
            match jump {
                Jump::Refused(number) => self.refusals[*number as usize][JUMP] += 1,
                Jump::Quit => self.jumps[0] += 1,
                Jump::Stay => self.jumps[1] += 1,
                Jump::Line(_) => self.jumps[2] += 1,
            }
        }
    }

    /// What never occurred, of all that is counted.
    pub fn missing(&self) -> Vec<String> {
        let mut missing = Vec::new();
        let mut need = |what: String, count: u64| {
            if count == 0 {
                missing.push(what);
            }
        };
        for (name, count) in CALLS.iter().zip(self.by_call) {
            need(format!("call {name}"), count);
        }
        for (index, row) in self.keys.iter().enumerate() {
            need(format!("key {}", key_name(index)), row[..REFUSED_AT].iter().sum());
        }
        for (answer, count) in ALL_ANSWERS.iter().zip(self.answers) {
            need(format!("answer {answer:?}"), count);
        }
        for (number, refusers) in REFUSABLE {
            for &refuser in refusers {
                need(format!("refusal {number} of {}", REFUSERS[refuser]), self.refusals[number][refuser]);
            }
        }
        for (name, count) in HISTORY_ENDS.iter().zip(self.history) {
            need(format!("history {name}"), count);
        }
        for (name, count) in JUMP_ENDS.iter().zip(self.jumps) {
            need(format!("jump {name}"), count);
        }
        for ((_, name), count) in differences::ALL.iter().zip(self.differences) {
            need(format!("difference '{name}'"), count);
        }
        missing
    }

    pub fn report(&self) -> String {
        let mut out = String::new();
        let mut line = |text: String| {
            let _ = writeln!(out, "{text}");
        };
        line(format!("{} scripts, {} broken off, {} with too little room for the replies", self.scripts, self.broken, self.cut_short));
        line("calls".to_string());
        for (name, count) in CALLS.iter().zip(self.by_call) {
            line(format!("  {name:<44}{count:>10}"));
        }
        line("keys, and how they were answered".to_string());
        for (index, row) in self.keys.iter().enumerate() {
            let answers = ALL_ANSWERS.map(|answer| format!("{answer:?}"));
            let refused = "refused".to_string();
            let row = named(answers.iter().chain([&refused]).zip(*row));
            line(format!("  {:<15}{row}", key_name(index)));
        }
        line("answers".to_string());
        for (answer, count) in ALL_ANSWERS.iter().zip(self.answers) {
            line(format!("  {:<44}{count:>10}", format!("{answer:?}")));
        }
        line("refusals, and what was refused".to_string());
        for (number, _) in REFUSABLE {
            let row = named(REFUSERS.iter().zip(self.refusals[number]));
            line(format!("  {number:<15}{row}"));
        }
        line("history writing".to_string());
        for (name, count) in HISTORY_ENDS.iter().zip(self.history) {
            line(format!("  {name:<44}{count:>10}"));
        }
        line("jumps".to_string());
        for (name, count) in JUMP_ENDS.iter().zip(self.jumps) {
            line(format!("  {name:<44}{count:>10}"));
        }
        line("listed differences, each where the rule was taken in the place of the original".to_string());
        for ((_, name), count) in differences::ALL.iter().zip(self.differences) {
            line(format!("  {name:<44}{count:>10}"));
        }
        out
    }
}
