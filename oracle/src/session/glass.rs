//! The changes that the original makes to a terminal, as the records of docs/RECORD.md, and the recorder's room.

use termwiz::cell::{AttributeChange, CellAttributes};
use termwiz::color::AnsiColor;
use termwiz::surface::change::Change;
use termwiz::surface::Position;

use crate::rules::refusals::FIRST_RECORD;

const VERSION: u8 = 1;
const PLACE: u8 = 1;
const PEN: u8 = 2;
const TEXT: u8 = 3;
const CLEAR: u8 = 4;
const RESHAPE: u8 = 5;

const PLAIN: u8 = 0;
const PROMPT: u8 = 1;
const REVERSE_ON: u8 = 2;
const REVERSE_OFF: u8 = 3;

/// The spare is what is free, divided by this.
const BYTES_PER_COST: usize = 8;

/// Knows how much of its room is used; the bytes themselves go to the replies.
pub struct Recorder {
    line: u16,
    width: u16,
    limit: usize,
    used: usize,
}

fn write(kind: u8, payload: &[u8], out: &mut Vec<u8>) {
    out.extend((payload.len() as u16 + 1).to_be_bytes());
    out.push(kind);
    out.extend(payload);
}

fn write_place(line: u16, column: u16, out: &mut Vec<u8>) {
    let [a, b] = line.to_be_bytes();
    let [c, d] = column.to_be_bytes();
    write(PLACE, &[a, b, c, d], out);
}

/// The prompt's colours, as the original sets them.
fn prompt_colours() -> CellAttributes {
    CellAttributes::default().set_foreground(AnsiColor::Black).set_background(AnsiColor::Silver).clone()
}

impl Recorder {
    /// With its first bytes.
    pub fn new(line: u16, width: u16, limit: usize) -> (Recorder, Vec<u8>) {
        let mut first = vec![VERSION];
        write(RESHAPE, &width.to_be_bytes(), &mut first);
        assert_eq!(first.len(), FIRST_RECORD);
        (Recorder { line, width, limit, used: first.len() }, first)
    }

    pub fn line(&self) -> usize {
        self.line as usize
    }

    pub fn width(&self) -> usize {
        self.width as usize
    }

    pub fn spare(&self) -> usize {
        (self.limit - self.used) / BYTES_PER_COST
    }

    /// The bytes of a call were added to the record.
    pub fn gain(&mut self, record: &[u8]) {
        self.used += record.len();
        assert!(self.used <= self.limit, "a call that is not refused has room");
    }

    pub fn reshape(&mut self, width: u16, out: &mut Vec<u8>) {
        self.width = width;
        write(RESHAPE, &width.to_be_bytes(), out);
    }

    pub fn place(&self, column: usize, out: &mut Vec<u8>) {
        write_place(self.line, column as u16, out);
    }

    pub fn text(&self, text: &str, out: &mut Vec<u8>) {
        write(TEXT, text.as_bytes(), out);
    }

    pub fn change(&self, change: &Change, out: &mut Vec<u8>) {
        match change {
            Change::CursorPosition { x: Position::Absolute(column), y: Position::Absolute(line) } => {
                write_place(*line as u16, *column as u16, out)
            }
            Change::AllAttributes(pen) if *pen == CellAttributes::default() => write(PEN, &[PLAIN], out),
            Change::AllAttributes(pen) if *pen == prompt_colours() => write(PEN, &[PROMPT], out),
            Change::AllAttributes(pen) => panic!("{pen:?} is no pen"),
            Change::Attribute(AttributeChange::Reverse(true)) => write(PEN, &[REVERSE_ON], out),
            Change::Attribute(AttributeChange::Reverse(false)) => write(PEN, &[REVERSE_OFF], out),
            Change::Text(text) => self.text(text, out),
            Change::ClearToEndOfLine(_) => write(CLEAR, &[], out),
        }
    }
}
