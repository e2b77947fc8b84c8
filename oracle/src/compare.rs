//! Runs the same scripts on the oracle and on the library, and holds the replies against each other.

use std::fs;
use std::path::PathBuf;
use std::time::Instant;

use crate::counts::Counts;
use crate::generate::{self, Script, REPLY_ROOM};
use crate::library::Subject;
use crate::run::{rest_kind, Replies, Runner};
use crate::script::bytes::Reader;
use crate::script::lines::{call_line, hex, reply_line};
use crate::script::reply;
use crate::shrink;

/// Stands in the room for replies before a run, so that it shows where none was written.
const UNWRITTEN: u8 = 0xA5;

/// Both sides, side by side.
pub struct Bench<'a> {
    pub runner: Runner,
    subject: &'a mut dyn Subject,
    out: Vec<u8>,
    /// Where each script is written before it is run, if anywhere.
    last: Option<PathBuf>,
}

impl<'a> Bench<'a> {
    pub fn new(subject: &'a mut dyn Subject) -> Bench<'a> {
        let last = std::env::var_os("ORACLE_LAST").map(PathBuf::from);
        Bench { runner: Runner::new(), subject, out: vec![0; REPLY_ROOM], last }
    }

    /// Whether the replies differ, or the library wrote where none of them stands.
    pub fn differs(&mut self, script: &Script) -> bool {
        let bytes = script.bytes();
        if let Some(last) = &self.last {
            fs::write(last, &bytes).expect("the last script can be written");
        }
        let expected = self.runner.run(&bytes, script.reply_room);
        let out = &mut self.out[..script.reply_room];
        // A large room is not looked through.
        let checks_room = out.len() < REPLY_ROOM;
        if checks_room {
            out.fill(UNWRITTEN);
        }
        let len = self.subject.run(&bytes, out);
        if out.get(..len) != Some(&expected.bytes[..]) {
            return true;
        }
        checks_room && out[len..].iter().any(|&byte| byte != UNWRITTEN)
    }

    /// The script and both sides' replies, up to the first that differs.
    fn explain(&mut self, script: &Script) -> String {
        let bytes = script.bytes();
        let expected = self.runner.run(&bytes, script.reply_room);
        let out = &mut self.out[..script.reply_room];
        out.fill(UNWRITTEN);
        let len = self.subject.run(&bytes, out);
        let mut text = String::new();
        let mut line = |words: String| {
            text.push_str(&words);
            text.push('\n');
        };
        line(format!("script bytes {}", hex(&bytes)));
        if script.reply_room < REPLY_ROOM {
            line(format!("room for replies: {} bytes", script.reply_room));
        }
        if len > out.len() {
            line(format!("the library tells {len} bytes of replies"));
        }
        let got = &out[..len.min(script.reply_room)];
        if got == &expected.bytes[..] {
            for call in &script.calls {
                line(call_line(call));
            }
            let written = out.iter().rposition(|&byte| byte != UNWRITTEN).map_or(0, |at| at + 1);
            line(format!("  both: {len} bytes of replies; the library wrote up to byte {written}"));
        } else {
            explain_calls(script, &expected, got, &mut line);
        }
        text
    }
}

fn explain_calls(script: &Script, expected: &Replies, got: &[u8], line: &mut dyn FnMut(String)) {
    let mut begin = 0;
    for (i, call) in script.calls.iter().enumerate() {
        line(call_line(call));
        let Some(&end) = expected.ends.get(i) else {
            line(format!("  oracle:  no reply\n  library: {} bytes more", got.len().saturating_sub(begin)));
            return;
        };
        let mut should = Reader::new(&expected.bytes[begin..end]);
        let should = reply::read(rest_kind(call), &mut should).map_or("?".to_string(), |reply| reply_line(&reply));
        if got.get(begin..end) == Some(&expected.bytes[begin..end]) {
            line(format!("  both:    {should}"));
            begin = end;
            continue;
        }
        let rest = got.get(begin..).unwrap_or(&[]);
        let is = match reply::read(rest_kind(call), &mut Reader::new(rest)) {
            Some(reply) => reply_line(&reply),
            None => format!("bytes {}", hex(&rest[..rest.len().min(200)])),
        };
        line(format!("  oracle:  {should}\n  library: {is}"));
        return;
    }
    line(format!("tail {}", hex(&script.tail)));
    line(format!("  oracle:  bytes {}\n  library: bytes {}", hex(&expected.bytes[begin..]), hex(got.get(begin..).unwrap_or(&[]))));
}

/// The first script that shows a difference, made as small as can be, if any does in about so many calls. `tell` is told how it goes.
pub fn first_difference(bench: &mut Bench, seed: u64, calls: u64, tell: impl Fn(String)) -> Option<Script> {
    for part in generate::parts(seed, calls) {
        let (begun, before) = (Instant::now(), bench.runner.counts.calls);
        for script in part.scripts {
            if bench.differs(&script) {
                tell(format!("{}: a difference, being made smaller", part.name));
                return Some(shrink::shrink(script, |script| bench.differs(script)));
            }
            let done = bench.runner.counts.calls;
            if done - before >= part.calls || done >= calls {
                break;
            }
        }
        tell(format!("{}: {} calls, {:.1} s", part.name, bench.runner.counts.calls - before, begun.elapsed().as_secs_f64()));
    }
    None
}

/// Compares on about so many calls, and shows the first difference. True where there is none.
pub fn compare(subject: &mut dyn Subject, seed: u64, calls: u64) -> bool {
    let start = Instant::now();
    let mut bench = Bench::new(subject);
    if let Some(smallest) = first_difference(&mut bench, seed, calls, |line| println!("{line}")) {
        println!("{}", bench.explain(&smallest));
        return false;
    }
    let counts = &bench.runner.counts;
    print!("{}", counts.report());
    tell_missing(counts);
    println!("{} scripts and {} calls in {:.1} s, seed {seed}", counts.scripts, counts.calls, start.elapsed().as_secs_f64());
    println!("{} calls compared, 0 unlisted differences", counts.calls);
    true
}

fn tell_missing(counts: &Counts) {
    let missing = counts.missing();
    if !missing.is_empty() {
        println!("never reached, in so few calls: {}", missing.join(", "));
    }
}

/// The same scripts on the oracle alone: how fast it is, and what they reach.
pub fn dry(seed: u64, calls: u64) {
    let mut runner = Runner::new();
    let mut seconds = 0.0;
    for part in generate::parts(seed, calls) {
        let before = runner.counts.calls;
        let mut part_seconds = 0.0;
        for script in part.scripts {
            let bytes = script.bytes();
            let begun = Instant::now();
            runner.run(&bytes, script.reply_room);
            part_seconds += begun.elapsed().as_secs_f64();
            let done = runner.counts.calls;
            if done - before >= part.calls || done >= calls {
                break;
            }
        }
        println!("{}: {} calls, {part_seconds:.1} s", part.name, runner.counts.calls - before);
        seconds += part_seconds;
    }
    print!("{}", runner.counts.report());
    tell_missing(&runner.counts);
    let speed = runner.counts.calls as f64 / seconds;
    println!("{} calls on the oracle alone, {speed:.0} a second; nothing was compared", runner.counts.calls);
}
