//! Scripts as bytes. Numbers are big-endian.

use super::call::{Call, Finish, Font, Key, Open, ALL_HELD, ALL_KEYS};

const OPEN: u8 = 1;
const DRAW: u8 = 2;
const KEY: u8 = 3;
const PASTE: u8 = 4;
const RESIZE: u8 = 5;
const FINISH: u8 = 6;
const CANCEL: u8 = 7;

pub fn write(call: &Call, out: &mut Vec<u8>) {
    match call {
        Call::Open(open) => {
            out.push(OPEN);
            out.push(open.font as u8);
            out.extend(open.line.to_be_bytes());
            out.extend(open.width.to_be_bytes());
            out.extend(open.room.to_be_bytes());
            out.push(open.label.len() as u8);
            out.extend(&open.label);
            out.extend((open.history.len() as u32).to_be_bytes());
            out.extend(&open.history);
        }
        Call::Draw => out.push(DRAW),
        Call::Key(key) => {
            out.extend([KEY, key.held as u8, key.name as u8]);
            out.extend(key.code.to_be_bytes());
        }
        Call::Paste(bytes) => {
            out.push(PASTE);
            out.extend((bytes.len() as u16).to_be_bytes());
            out.extend(bytes);
        }
        Call::Resize(width) => {
            out.push(RESIZE);
            out.extend(width.to_be_bytes());
        }
        Call::Finish(finish) => {
            out.push(FINISH);
            out.extend(finish.lines.to_be_bytes());
            out.extend(finish.room.to_be_bytes());
            out.extend((finish.history.len() as u32).to_be_bytes());
            out.extend(&finish.history);
        }
        Call::Cancel => out.push(CANCEL),
    }
}

/// Takes a script apart from the front.
pub struct Reader<'a> {
    bytes: &'a [u8],
    at: usize,
}

impl<'a> Reader<'a> {
    pub fn new(bytes: &'a [u8]) -> Reader<'a> {
        Reader { bytes, at: 0 }
    }

    /// How many bytes were read.
    pub fn at(&self) -> usize {
        self.at
    }

    pub fn is_at_end(&self) -> bool {
        self.at == self.bytes.len()
    }

    pub fn take(&mut self, count: usize) -> Option<&'a [u8]> {
        let taken = self.bytes.get(self.at..)?.get(..count)?;
        self.at += count;
        Some(taken)
    }

    pub fn u8(&mut self) -> Option<u8> {
        Some(self.take(1)?[0])
    }

    pub fn u16(&mut self) -> Option<u16> {
        Some(u16::from_be_bytes(self.take(2)?.try_into().ok()?))
    }

    pub fn u32(&mut self) -> Option<u32> {
        Some(u32::from_be_bytes(self.take(4)?.try_into().ok()?))
    }

    pub fn u64(&mut self) -> Option<u64> {
        Some(u64::from_be_bytes(self.take(8)?.try_into().ok()?))
    }

    fn font(&mut self) -> Option<Font> {
        match self.u8()? {
            0 => Some(Font::Foyer),
            1 => Some(Font::Counter),
            _ => None,
        }
    }

    fn key(&mut self) -> Option<Key> {
        let held = *ALL_HELD.get(usize::from(self.u8()?))?;
        let name = *ALL_KEYS.get(usize::from(self.u8()?))?;
        let code = self.u32()?;
        Some(Key { held, name, code })
    }

    /// The call that stands next, or none where it is cut short or has a number that means nothing.
    pub fn call(&mut self) -> Option<Call> {
        match self.u8()? {
            OPEN => {
                let font = self.font()?;
                let line = self.u16()?;
                let width = self.u16()?;
                let room = self.u32()?;
                let label_len = self.u8()? as usize;
                let label = self.take(label_len)?.to_vec();
                let history_len = self.u32()? as usize;
                let history = self.take(history_len)?.to_vec();
                Some(Call::Open(Open { font, line, width, room, label, history }))
            }
            DRAW => Some(Call::Draw),
            KEY => self.key().map(Call::Key),
            PASTE => {
                let len = self.u16()? as usize;
                Some(Call::Paste(self.take(len)?.to_vec()))
            }
            RESIZE => self.u16().map(Call::Resize),
            FINISH => {
                let lines = self.u64()?;
                let room = self.u32()?;
                let history_len = self.u32()? as usize;
                let history = self.take(history_len)?.to_vec();
                Some(Call::Finish(Finish { lines, room, history }))
            }
            CANCEL => Some(Call::Cancel),
            _ => None,
        }
    }
}
