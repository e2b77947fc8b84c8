//! Planted faults: the comparison has to find each of them, and to show it in a few calls.

use super::Checks;
use crate::compare::{first_difference, Bench};
use crate::library::Subject;
use crate::run::Runner;
use crate::script::call::{Call, Held, KeyName};
use crate::script::reply::{Answer, Jump, Reply, Rest, Written};

type Fault = fn(&Call, &mut Reply);

/// The oracle with a fault in its replies, in the place of the library.
struct Faulty {
    runner: Runner,
    fault: Fault,
}

impl Subject for Faulty {
    fn run(&mut self, script: &[u8], out: &mut [u8]) -> usize {
        let replies = self.runner.run_changed(script, out.len(), self.fault);
        out[..replies.bytes.len()].copy_from_slice(&replies.bytes);
        replies.bytes.len()
    }
}

fn letter(_: &Call, reply: &mut Reply) {
    if let Reply::Said(said @ Ok(Answer::Letter), Rest::Draft(draft, _)) = reply {
        if draft.text.len() == 3 {
            *said = Ok(Answer::Redraw);
        }
    }
}

fn offset(_: &Call, reply: &mut Reply) {
    if let Reply::Said(_, Rest::Draft(draft, _)) = reply {
        if draft.offset == 2 {
            draft.offset = 1;
        }
    }
}

fn alt_backspace(call: &Call, reply: &mut Reply) {
    let Call::Key(key) = call else { return };
    if (key.held, key.name) != (Held::Alt, KeyName::Backspace) {
        return;
    }
    if let Reply::Said(said, _) = reply {
        *said = Ok(Answer::Nothing);
    }
}

fn place_of_ill_formed(_: &Call, reply: &mut Reply) {
    if let Reply::Said(Err(refusal), _) = reply {
        if refusal.place > 2 {
            refusal.place -= 1;
        }
    }
}

fn last_newline(_: &Call, reply: &mut Reply) {
    if let Reply::Said(_, Rest::Finished(Written::Bytes(bytes), _)) = reply {
        if bytes.iter().filter(|&&byte| byte == b'\n').count() > 2 {
            bytes.pop();
        }
    }
}

fn jump_by_percentage(call: &Call, reply: &mut Reply) {
    let (Call::Finish(finish), Reply::Said(_, Rest::Finished(_, Jump::Line(line)))) = (call, reply) else { return };
    if finish.lines == 1 << 32 && *line + 1 < finish.lines && *line > 0 {
        *line += 1;
    }
}

fn record(call: &Call, reply: &mut Reply) {
    if let (Call::Resize(512), Reply::Said(Ok(_), Rest::Draft(_, record))) = (call, reply) {
        record[0] ^= 1;
    }
}

/// With the calls that are enough to show it.
const FAULTS: [(&str, Fault, usize); 7] = [
    ("a third letter is drawn", letter, 4),
    ("an offset of 2 is 1", offset, 3),
    ("Alt+Backspace does nothing", alt_backspace, 3),
    ("the place of 16 is one less", place_of_ill_formed, 2),
    ("the last 0A is not written", last_newline, 3),
    ("a jump in 2^32 lines is one line off", jump_by_percentage, 3),
    ("a byte of the record is wrong", record, 2),
];

pub fn check(checks: &mut Checks) {
    for (what, fault, calls) in FAULTS {
        let mut faulty = Faulty { runner: Runner::new(), fault };
        let mut bench = Bench::new(&mut faulty);
        let found = first_difference(&mut bench, 1, 200_000, |_| ());
        let is_small = found.is_some_and(|script| script.calls.len() <= calls);
        checks.equal(&format!("planted fault found, and shown in {calls} calls: {what}"), is_small, true);
    }
}
