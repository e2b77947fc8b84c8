//! Runs scripts: bytes or calls in, replies out.

use crate::counts::Counts;
use crate::script::bytes::Reader;
use crate::script::call::Call;
use crate::script::reply::{Answer, Refusal, Reply, Rest, RestKind};
use crate::session::{Scratch, Session};

/// What kind of rest the reply to a call has.
pub fn rest_kind(call: &Call) -> RestKind {
    match call {
        Call::Open(_) => RestKind::DraftIfAccepted,
        Call::Draw | Call::Key(_) | Call::Paste(_) | Call::Resize(_) => RestKind::Draft,
        Call::Finish(_) => RestKind::Finished,
        Call::Cancel => RestKind::None,
    }
}

/// The replies to a script, with the place where each of them ends.
pub struct Replies {
    pub bytes: Vec<u8>,
    pub ends: Vec<usize>,
}

pub struct Runner {
    scratch: Scratch,
    session: Option<Session>,
    pub counts: Counts,
}

impl Runner {
    pub fn new() -> Runner {
        Runner { scratch: Scratch::new(), session: None, counts: Counts::default() }
    }

    /// The replies to a whole script, as many as fit.
    pub fn run(&mut self, script: &[u8], room: usize) -> Replies {
        self.run_changed(script, room, |_, _| ())
    }

    /// The same with each reply changed before it is written: how a fault is planted.
    pub fn run_changed(&mut self, script: &[u8], room: usize, change: impl Fn(&Call, &mut Reply)) -> Replies {
        self.session = None;
        self.counts.scripts += 1;
        let mut replies = Replies { bytes: Vec::new(), ends: Vec::new() };
        let mut reader = Reader::new(script);
        while !reader.is_at_end() {
            let begin = reader.at();
            let reply = reader.call().and_then(|call| {
                let mut reply = self.call(&call)?;
                change(&call, &mut reply);
                Some(reply)
            });
            let is_broken = reply.is_none();
            reply.unwrap_or(Reply::Broken(begin as u32)).write(&mut replies.bytes);
            if replies.bytes.len() > room {
                replies.bytes.truncate(replies.ends.last().copied().unwrap_or(0));
                self.counts.cut_short += 1;
                break;
            }
            replies.ends.push(replies.bytes.len());
            if is_broken {
                self.counts.broken += 1;
                break;
            }
        }
        self.session = None;
        replies
    }

    pub fn is_open(&self) -> bool {
        self.session.is_some()
    }

    /// The reply to one call, or none where it cannot stand.
    pub fn call(&mut self, call: &Call) -> Option<Reply> {
        let reply = match (call, self.session.take()) {
            (Call::Open(open), None) => match Session::open(open, &mut self.scratch, &mut self.counts) {
                Ok((session, first)) => {
                    let rest = Rest::Draft(session.draft(), first);
                    self.session = Some(session);
                    Reply::Said(Ok(Answer::Done), rest)
                }
                Err(refusal) => Reply::Said(Err(refusal), Rest::None),
            },
            (Call::Finish(finish), Some(session)) => {
                let (written, jump) = session.finish(finish, &mut self.scratch, &mut self.counts);
                Reply::Said(Ok(Answer::Done), Rest::Finished(written, jump))
            }
            (Call::Cancel, Some(_)) => Reply::Said(Ok(Answer::Done), Rest::None),
            (Call::Open(_), Some(session)) => {
                self.session = Some(session);
                return None;
            }
            (_, None) => return None,
            (_, Some(mut session)) => {
                let reply = in_session(call, &mut session, &mut self.counts);
                self.session = Some(session);
                reply
            }
        };
        self.counts.enter(call, &reply);
        Some(reply)
    }
}

/// The calls that leave the session open.
fn in_session(call: &Call, session: &mut Session, counts: &mut Counts) -> Reply {
    let done = |record| (Answer::Done, record);
    let said: Result<(Answer, Vec<u8>), Refusal> = match call {
        Call::Draw => session.draw(counts).map(done),
        Call::Key(key) => session.key(key, counts),
        Call::Paste(bytes) => session.paste(bytes, counts),
        Call::Resize(width) => session.resize(*width, counts).map(done),
        Call::Open(_) | Call::Finish(_) | Call::Cancel => unreachable!("these begin or end a session"),
    };
    let (said, record) = match said {
        Ok((answer, record)) => (Ok(answer), record),
        Err(refusal) => (Err(refusal), Vec::new()),
    };
    Reply::Said(said, Rest::Draft(session.draft(), record))
}
