//! Makes a script smaller while it still shows a difference.

use crate::generate::{Script, LABEL, REPLY_ROOM};
use crate::script::call::{Call, Key, KeyName};

/// Runs that may be spent on it.
const MOST_TRIES: usize = 100_000;

struct Shrinking<F> {
    smallest: Script,
    differs: F,
    tries: usize,
}

impl<F: FnMut(&Script) -> bool> Shrinking<F> {
    /// Takes a smaller script if it still differs.
    fn take(&mut self, candidate: Script) -> bool {
        if self.tries == MOST_TRIES {
            return false;
        }
        self.tries += 1;
        let still = (self.differs)(&candidate);
        if still {
            self.smallest = candidate;
        }
        still
    }

    /// Drops stretches of a list, long ones first.
    fn drop_parts<T: Clone>(&mut self, get: fn(&mut Script, usize) -> Option<&mut Vec<T>>, call: usize) -> bool {
        let Some(len) = get(&mut self.smallest, call).map(|list| list.len()) else { return false };
        let mut improved = false;
        let mut stretch = len.next_power_of_two();
        while stretch > 0 {
            let mut at = 0;
            loop {
                let mut candidate = self.smallest.clone();
                let Some(list) = get(&mut candidate, call) else { break };
                if at >= list.len() {
                    break;
                }
                let end = (at + stretch).min(list.len());
                list.drain(at..end);
                if self.take(candidate) {
                    improved = true;
                } else {
                    at += stretch;
                }
            }
            stretch /= 2;
        }
        improved
    }

    fn change_call(&mut self, call: usize, change: impl FnOnce(&mut Call)) -> bool {
        let mut candidate = self.smallest.clone();
        change(&mut candidate.calls[call]);
        candidate.calls[call] != self.smallest.calls[call] && self.take(candidate)
    }

    /// One round over everything.
    fn round(&mut self) -> bool {
        let mut improved = false;
        if self.smallest.reply_room < REPLY_ROOM {
            let candidate = Script { reply_room: REPLY_ROOM, ..self.smallest.clone() };
            improved |= self.take(candidate);
        }
        improved |= self.drop_parts(|script, _| Some(&mut script.tail), 0);
        improved |= self.drop_parts(|script, _| Some(&mut script.calls), 0);
        for call in 0..self.smallest.calls.len() {
            improved |= self.drop_parts(history, call);
            improved |= self.drop_parts(pasted, call);
            improved |= self.simplify(call);
        }
        improved
    }

    /// Plainer numbers, one after another.
    fn simplify(&mut self, call: usize) -> bool {
        let mut improved = false;
        improved |= self.change_call(call, |call| {
            if let Call::Open(open) = call {
                (open.line, open.room) = (0, 65_536);
            }
        });
        improved |= self.change_call(call, |call| {
            if let Call::Open(open) = call {
                open.label = LABEL.to_vec();
            }
        });
        improved |= self.change_call(call, |call| {
            if let Call::Open(open) = call {
                open.width = 40;
            }
        });
        improved |= self.change_call(call, |call| {
            if let Call::Finish(finish) = call {
                finish.room = 65_536;
            }
        });
        improved |= self.change_call(call, |call| {
            if let Call::Finish(finish) = call {
                finish.lines = 10;
            }
        });
        improved |= self.change_call(call, |call| {
            if let Call::Key(key) = call {
                *key = if key.name == KeyName::Char { Key { code: 0x61, ..*key } } else { Key { code: 0, ..*key } };
            }
        });
        improved
    }
}

fn history(script: &mut Script, call: usize) -> Option<&mut Vec<u8>> {
    match script.calls.get_mut(call)? {
        Call::Open(open) => Some(&mut open.history),
        Call::Finish(finish) => Some(&mut finish.history),
        _ => None,
    }
}

fn pasted(script: &mut Script, call: usize) -> Option<&mut Vec<u8>> {
    match script.calls.get_mut(call)? {
        Call::Paste(bytes) => Some(bytes),
        _ => None,
    }
}

/// The smallest script found for which `differs` still holds.
pub fn shrink(script: Script, differs: impl FnMut(&Script) -> bool) -> Script {
    let mut shrinking = Shrinking { smallest: script, differs, tries: 0 };
    while shrinking.round() && shrinking.tries < MOST_TRIES {}
    shrinking.smallest
}
