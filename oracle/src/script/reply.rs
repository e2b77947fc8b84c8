//! Replies, and their bytes.

use super::bytes::Reader;

#[derive(Clone, Copy, Debug, PartialEq, Eq, Hash, PartialOrd, Ord)]
pub enum Answer {
    Nothing,
    Letter,
    Redraw,
    Finish,
    Cancel,
    Done,
}

/// In the order of their numbers.
pub const ALL_ANSWERS: [Answer; 6] =
    [Answer::Nothing, Answer::Letter, Answer::Redraw, Answer::Finish, Answer::Cancel, Answer::Done];

/// The number that stands for "refused" and "broken".
const NO_ANSWER: u8 = 0xFF;

/// Why a call says no.
#[derive(Clone, Copy, Debug, PartialEq, Eq)]
pub struct Refusal {
    pub number: u8,
    /// Refusal 16 has a place.
    pub place: u32,
}

impl Refusal {
    pub const fn of(number: u8) -> Refusal {
        Refusal { number, place: 0 }
    }
}

/// The draft in hand.
#[derive(Clone, Debug, PartialEq, Eq)]
pub struct Draft {
    pub text: Vec<u32>,
    pub place: u16,
    pub offset: u16,
}

/// What history writing came to.
#[derive(Clone, Debug, PartialEq, Eq)]
pub enum Written {
    Refused(u8),
    Nothing,
    Bytes(Vec<u8>),
}

#[derive(Clone, Copy, Debug, PartialEq, Eq)]
pub enum Jump {
    Refused(u8),
    Quit,
    Stay,
    Line(u64),
}

/// What follows the first six bytes.
#[derive(Clone, Debug, PartialEq, Eq)]
pub enum Rest {
    None,
    Draft(Draft, Vec<u8>),
    Finished(Written, Jump),
}

#[derive(Clone, Debug, PartialEq, Eq)]
pub enum Reply {
    Said(Result<Answer, Refusal>, Rest),
    /// The call at this place of the script is broken.
    Broken(u32),
}

impl Reply {
    pub fn write(&self, out: &mut Vec<u8>) {
        match self {
            Reply::Said(said, rest) => {
                let (number, place, answer) = match said {
                    Ok(answer) => (0, 0, *answer as u8),
                    Err(refusal) => (refusal.number, refusal.place, NO_ANSWER),
                };
                write_front(number, place, answer, out);
                rest.write(out);
            }
            Reply::Broken(place) => write_front(NO_ANSWER, *place, NO_ANSWER, out),
        }
    }
}

fn write_front(number: u8, place: u32, answer: u8, out: &mut Vec<u8>) {
    out.push(number);
    out.extend(place.to_be_bytes());
    out.push(answer);
}

fn write_bytes(bytes: &[u8], out: &mut Vec<u8>) {
    out.extend((bytes.len() as u32).to_be_bytes());
    out.extend(bytes);
}

impl Rest {
    fn write(&self, out: &mut Vec<u8>) {
        match self {
            Rest::None => {}
            Rest::Draft(draft, record) => {
                out.extend((draft.text.len() as u16).to_be_bytes());
                for code in &draft.text {
                    out.extend(code.to_be_bytes());
                }
                out.extend(draft.place.to_be_bytes());
                out.extend(draft.offset.to_be_bytes());
                write_bytes(record, out);
            }
            Rest::Finished(written, jump) => {
                match written {
                    Written::Refused(number) => out.extend([*number, 0, 0, 0, 0, 0]),
                    Written::Nothing => out.extend([0, 0, 0, 0, 0, 0]),
                    Written::Bytes(bytes) => {
                        out.extend([0, 1]);
                        write_bytes(bytes, out);
                    }
                }
                let (number, kind, line) = match *jump {
                    Jump::Refused(number) => (number, NO_ANSWER, 0),
                    Jump::Quit => (0, 0, 0),
                    Jump::Stay => (0, 1, 0),
                    Jump::Line(line) => (0, 2, line),
                };
                out.extend([number, kind]);
                out.extend(line.to_be_bytes());
            }
        }
    }
}

/// What kind of rest a call's reply has.
#[derive(Clone, Copy, Debug, PartialEq, Eq)]
pub enum RestKind {
    None,
    DraftIfAccepted,
    Draft,
    Finished,
}

/// The reply that stands next, if it can be read as one. Only used to show replies to people.
pub fn read(kind: RestKind, reader: &mut Reader) -> Option<Reply> {
    let number = reader.u8()?;
    let place = reader.u32()?;
    let answer = reader.u8()?;
    if number == NO_ANSWER {
        return Some(Reply::Broken(place));
    }
    let said = if answer == NO_ANSWER {
        Err(Refusal { number, place })
    } else {
        Ok(*ALL_ANSWERS.get(answer as usize)?)
    };
    let rest = match kind {
        RestKind::None => Rest::None,
        RestKind::DraftIfAccepted if said.is_err() => Rest::None,
        RestKind::DraftIfAccepted | RestKind::Draft => read_draft(reader)?,
        RestKind::Finished => read_finished(reader)?,
    };
    Some(Reply::Said(said, rest))
}

fn read_bytes(reader: &mut Reader) -> Option<Vec<u8>> {
    let len = reader.u32()? as usize;
    Some(reader.take(len)?.to_vec())
}

fn read_draft(reader: &mut Reader) -> Option<Rest> {
    let len = reader.u16()?;
    let text = (0..len).map(|_| reader.u32()).collect::<Option<_>>()?;
    let place = reader.u16()?;
    let offset = reader.u16()?;
    Some(Rest::Draft(Draft { text, place, offset }, read_bytes(reader)?))
}

fn read_finished(reader: &mut Reader) -> Option<Rest> {
    let (number, has_bytes, bytes) = (reader.u8()?, reader.u8()?, read_bytes(reader)?);
    let written = match (number, has_bytes) {
        (0, 0) => Written::Nothing,
        (0, _) => Written::Bytes(bytes),
        _ => Written::Refused(number),
    };
    let (number, kind, line) = (reader.u8()?, reader.u8()?, reader.u64()?);
    let jump = match (number, kind) {
        (0, 0) => Jump::Quit,
        (0, 1) => Jump::Stay,
        (0, 2) => Jump::Line(line),
        (0, _) => return None,
        _ => Jump::Refused(number),
    };
    Some(Rest::Finished(written, jump))
}
