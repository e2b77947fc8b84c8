//! Cases worked by hand, with the label "Go to line:".

use super::Checks;
use crate::generate::{finish, open, paste, LABEL};
use crate::run::Runner;
use crate::script::call::{Call, Finish, Font, Held, Key, KeyName, Open};
use crate::script::lines::{hex, read_call, reply_line};
use crate::script::reply::{Answer, Jump, Refusal, Reply, Rest, Written};

/// A session to call, and what its last reply said.
struct Told {
    runner: Runner,
    said: Result<Answer, Refusal>,
    text: String,
    place: u16,
    offset: u16,
    record: Vec<u8>,
}

impl Told {
    fn open(call: Call) -> Told {
        let mut told = Told {
            runner: Runner::new(),
            said: Ok(Answer::Done),
            text: String::new(),
            place: 0,
            offset: 0,
            record: Vec::new(),
        };
        told.call(call);
        told
    }

    fn at(width: u16) -> Told {
        Told::open(open(Font::Foyer, width, LABEL, b""))
    }

    fn call(&mut self, call: Call) -> &mut Told {
        let Some(Reply::Said(said, rest)) = self.runner.call(&call) else { panic!("{call:?} can stand here") };
        self.said = said;
        if let Rest::Draft(draft, record) = rest {
            self.text = draft.text.iter().filter_map(|&code| char::from_u32(code)).collect();
            (self.place, self.offset, self.record) = (draft.place, draft.offset, record);
        }
        self
    }

    fn key(&mut self, key: Key) -> &mut Told {
        self.call(Call::Key(key))
    }

    fn paste(&mut self, text: &str) -> &mut Told {
        self.call(paste(text))
    }

    /// The column that the last drawing placed the cursor at.
    fn column(&self) -> u16 {
        let [.., 0x00, 0x05, 0x01, _, _, high, low] = self.record[..] else { panic!("no cursor was placed") };
        u16::from_be_bytes([high, low])
    }
}

fn jump(text: &str, lines: u64) -> Jump {
    match ended(text, b"", finish(lines, b"")) {
        (_, jump) => jump,
    }
}

/// What a text comes to that is pasted into a new prompt.
fn ended(text: &str, history: &[u8], end: Call) -> (Written, Jump) {
    let mut told = Told::open(open(Font::Foyer, 40, LABEL, history));
    told.paste(text);
    match told.runner.call(&end) {
        Some(Reply::Said(Ok(Answer::Done), Rest::Finished(written, jump))) => (written, jump),
        reply => panic!("{reply:?} is no reply to finish"),
    }
}

pub fn check(checks: &mut Checks) {
    typing(checks);
    words(checks);
    loading(checks);
    jumps(checks);
    writing(checks);
    records(checks);
    refusals(checks);
    scripts(checks);
}

fn typing(checks: &mut Checks) {
    let mut told = Told::at(40);
    let answers: Vec<_> = (0..19).map(|_| told.key(Key::typed(0x61)).said).collect();
    checks.equal("19 letters answer Letter", answers, vec![Ok(Answer::Letter); 19]);
    checks.equal("the 19th leaves column 34", told.call(Call::Draw).column(), 34);
    told.key(Key::typed(0x61));
    checks.equal("the 20th: Redraw, offset 0, column 35", (told.said, told.offset, told.column()), (Ok(Answer::Redraw), 0, 35));
    told.key(Key::typed(0x61));
    checks.equal("the 21st: Redraw, offset 1, column 35", (told.said, told.offset, told.column()), (Ok(Answer::Redraw), 1, 35));
    told.key(Key::ctrl('u'));
    checks.equal("Ctrl+U then: offset 0, column 15", (told.said, told.offset, told.column()), (Ok(Answer::Redraw), 0, 15));

    let mut told = Told::at(20);
    told.key(Key::typed(0x61));
    checks.equal("W 20, one letter: Redraw, offset 1, column 15", (told.said, told.offset, told.column()), (Ok(Answer::Redraw), 1, 15));
    checks.equal("resize to 512 passes", told.call(Call::Resize(512)).said, Ok(Answer::Done));
    checks.equal("resize to 513 gives 13", told.call(Call::Resize(513)).said, Err(Refusal::of(13)));
    checks.equal("resize to 19 gives 13", told.call(Call::Resize(19)).said, Err(Refusal::of(13)));

    let mut told = Told::at(40);
    told.key(Key::typed(0x07));
    let row = "0005010000000000020201000F032020476F20746F206C696E653A200002020000020320\
               000202020005033C30373E0002020300010400050100000013";
    checks.equal("07 typed: Redraw", told.said, Ok(Answer::Redraw));
    checks.equal("07 typed: reversed <07> at columns 15 to 18, cursor 19", hex(&told.record), row.to_string());
}

fn words(checks: &mut Checks) {
    let mut told = Told::at(40);
    told.paste("row F 12").key(Key::ctrl('w'));
    checks.equal("\"row F 12\", Ctrl+W", told.text.as_str(), "row F ");
    for key in [Key::ctrl('w'), Key::with(Held::Alt, KeyName::Backspace)] {
        let mut told = Told::at(40);
        told.paste(" ab").key(key);
        checks.equal("\" ab\" loses its word and keeps its space", (told.text.as_str(), told.place), (" ", 1));
    }
    for key in [Key::alt('b'), Key::with(Held::Ctrl, KeyName::Left)] {
        let mut told = Told::at(40);
        told.paste(" ab").key(key);
        checks.equal("\" ab\": the word start is place 1", (told.text.as_str(), told.place), (" ab", 1));
    }
    checks.equal("word starts and ends of every text of 7 letters and spaces", wrong_words(), Vec::<String>::new());
    let mut told = Told::at(40);
    told.paste("a\u{301}b").key(Key::plain(KeyName::Left));
    checks.equal("61 CC 81 62 pasted: Left gives place 2", told.place, 2);
    checks.equal("and then 0", told.key(Key::plain(KeyName::Left)).place, 0);
}

/// The word start: back past white space, then past other characters.
fn word_start(text: &str, place: usize) -> usize {
    text[..place].trim_end().trim_end_matches(|c: char| !c.is_whitespace()).len()
}

/// The word end: on past white space, then past other characters.
fn word_end(text: &str, place: usize) -> usize {
    text.len() - text[place..].trim_start().trim_start_matches(|c: char| !c.is_whitespace()).len()
}

/// The texts and places where a word key goes elsewhere than it should, or removes something else.
fn wrong_words() -> Vec<String> {
    let mut wrong = Vec::new();
    for bits in 0..1 << 7 {
        let text: String = (0..7).map(|i| if bits >> i & 1 == 0 { 'a' } else { ' ' }).collect();
        for place in 0..=text.len() {
            let (start, end) = (word_start(&text, place), word_end(&text, place));
            let without = |from: usize, to: usize| text[..from].to_string() + &text[to..];
            let cases = [
                (Key::alt('b'), text.clone(), start),
                (Key::with(Held::Ctrl, KeyName::Left), text.clone(), start),
                (Key::ctrl('w'), without(start, place), start),
                (Key::with(Held::Alt, KeyName::Backspace), without(start, place), start),
                (Key::alt('f'), text.clone(), end),
                (Key::with(Held::Ctrl, KeyName::Right), text.clone(), end),
                (Key::alt('d'), without(place, end), place),
            ];
            for (key, text_after, place_after) in cases {
                let mut told = Told::at(40);
                told.paste(&text[place..]).key(Key::plain(KeyName::Home)).paste(&text[..place]).key(key);
                if (&told.text, told.place as usize) != (&text_after, place_after) {
                    wrong.push(format!("{text:?} at {place}, {key:?}: {:?} at {}", told.text, told.place));
                }
            }
        }
    }
    wrong
}

fn loading(checks: &mut Checks) {
    let cases = [
        ("\\x+5", "\u{5}"),
        ("a\\x4", "a"),
        ("a\\", "a"),
        ("a\\x", "a"),
        ("\\xZZb", "b"),
        ("\\\\", "\\"),
        ("\\y", "y"),
        ("\\x4a", "J"),
    ];
    for (line, text) in cases {
        let mut told = Told::open(open(Font::Foyer, 40, LABEL, line.as_bytes()));
        told.key(Key::plain(KeyName::Up));
        checks.equal(&format!("{line} loads"), told.text.as_str(), text);
    }
}

fn jumps(checks: &mut Checks) {
    for (text, line) in [("-10", 0), ("-1", 8), ("-25%", 6), ("11", 9), ("10", 9), ("0", 0), ("-11", 0), ("100%", 9)] {
        checks.equal(&format!("10 lines: \"{text}\""), jump(text, 10), Jump::Line(line));
    }
    checks.equal("\"q\" quits", jump("q", 10), Jump::Quit);
    checks.equal("\"\" stays", jump("", 10), Jump::Stay);
    let long = (1 << 32) + 1;
    let refused = [
        ("", long, 19),
        ("%", 10, 20),
        ("-", 10, 21),
        ("922337203685477580x", 10, 21),
        ("9999999999999999999x", 10, 22),
        ("9223372036854775808", 10, 22),
        ("-9223372036854775809", 10, 23),
        ("1", 0, 24),
        ("x", 0, 21),
    ];
    for (text, lines, number) in refused {
        checks.equal(&format!("{lines} lines: \"{text}\""), jump(text, lines), Jump::Refused(number));
    }
}

fn writing(checks: &mut Checks) {
    let room = |room, history: &[u8]| Call::Finish(Finish { lines: 10, room, history: history.to_vec() });
    let cases: [(&str, &[u8], &[u8], u32, Written); 9] = [
        ("\u{7}\\", b"", b"", 100, Written::Bytes(b"\\x07\\\\\n".to_vec())),
        ("", b"a\n", b"a\n", 100, Written::Nothing),
        ("a", b"a\n", b"a\n", 100, Written::Nothing),
        ("a", b"a\n\n", b"a\n\n", 100, Written::Nothing),
        ("a", b"a\n", b"a\nb\n", 100, Written::Bytes(b"a\nb\na\n".to_vec())),
        ("c", b"", b"a\n\xFF\nb", 100, Written::Bytes(b"a\nb\nc\n".to_vec())),
        ("c", b"", b"a\r\nb\r\r\n", 7, Written::Bytes(b"a\nb\r\nc\n".to_vec())),
        ("c", b"", b"a\r\nb\r\r\n", 6, Written::Refused(18)),
        ("c", b"", &[b'\n'; 65_537], 100, Written::Refused(12)),
    ];
    for (text, opening, present, bytes, should) in cases {
        let what = format!("{text:?} written to {} bytes of history", present.len());
        checks.equal(&what, ended(text, opening, room(bytes, present)).0, should);
    }
}

fn records(checks: &mut Checks) {
    let mut told = Told::at(40);
    checks.equal("a recorder of W 40 begins", hex(&told.record), "010003050028".to_string());
    told.key(Key::typed(0x61));
    checks.equal("Letter \"a\" adds", hex(&told.record), "00020361".to_string());
    let line = Open { font: Font::Foyer, line: 0x0102, width: 40, room: 65_536, label: LABEL.to_vec(), history: Vec::new() };
    let mut told = Told::open(Call::Open(line));
    told.call(Call::Draw);
    checks.equal("a place has the line of the screen", hex(&told.record[..7]), "00050101020000".to_string());

    // A wide character fills the row up to its last column, and a label comes then: none of it is left, and it is sent as an empty text.
    let mut told = Told::at(21);
    told.paste("座座座\u{7}").key(Key::plain(KeyName::Home));
    let is_empty_label = told.record.windows(11).any(|window| window == [0, 2, 2, 2, 0, 1, 3, 0, 2, 2, 3]);
    checks.equal("a label with no column left is an empty text", is_empty_label, true);
}

fn refusals(checks: &mut Checks) {
    let mut told = Told::at(40);
    checks.equal("no scalar value: 15", told.key(Key { code: 0xD800, ..Key::ctrl('a') }).said, Err(Refusal::of(15)));
    checks.equal("31 E2 82: 16 at 1", told.call(Call::Paste(vec![0x31, 0xE2, 0x82])).said, Err(Refusal { number: 16, place: 1 }));
    checks.equal("257 characters: 17", told.paste(&"a".repeat(257)).said, Err(Refusal::of(17)));
    checks.equal("256 characters pass", told.paste(&"a".repeat(256)).said, Ok(Answer::Redraw));
    checks.equal("a 257th letter: 17", told.key(Key::typed(0x61)).said, Err(Refusal::of(17)));
    checks.equal("and nothing is changed", (told.text.len(), told.place, told.record.len()), (256, 256, 0));
    let with_room = |room| Open { font: Font::Foyer, line: 0, width: 40, room, label: LABEL.to_vec(), history: Vec::new() };
    checks.equal("room 5: 18", Told::open(Call::Open(with_room(5))).said, Err(Refusal::of(18)));
    checks.equal("10,399 bytes free: 14", Told::open(Call::Open(with_room(10_405))).call(Call::Draw).said, Err(Refusal::of(14)));
    checks.equal("10,400 bytes free pass", Told::open(Call::Open(with_room(10_406))).call(Call::Draw).said, Ok(Answer::Done));
    let bad = Open { label: vec![0x7F], history: vec![0; 65_537], width: 0, ..with_room(0) };
    checks.equal("the upper refusal is told: 11", Told::open(Call::Open(bad.clone())).said, Err(Refusal::of(11)));
    let long = Open { label: b":".to_vec(), ..bad };
    checks.equal("then 12", Told::open(Call::Open(long.clone())).said, Err(Refusal::of(12)));
    let short = Open { history: Vec::new(), ..long };
    checks.equal("then 13", Told::open(Call::Open(short.clone())).said, Err(Refusal::of(13)));
    checks.equal("then 18", Told::open(Call::Open(Open { width: 1, ..short })).said, Err(Refusal::of(18)));
}

fn scripts(checks: &mut Checks) {
    let mut runner = Runner::new();
    let mut reply = |script: &[u8], room: usize| hex(&runner.run(script, room).bytes);
    checks.equal("no script, no reply", reply(&[], 100), "-".to_string());
    checks.equal("draw with no session is broken at 0", reply(&[2], 100), "FF00000000FF".to_string());
    checks.equal("a reply that does not fit is not written", reply(&[2], 5), "-".to_string());
    let open = [1, 0, 0, 0, 0, 40, 0, 1, 0, 0, 1, b':', 0, 0, 0, 0];
    let opened = "000000000005000000000000000000060100030500" .to_string() + "28";
    checks.equal("open", reply(&open, 100), opened.clone());
    let twice = [&open[..], &open[..]].concat();
    checks.equal("open in a session is broken", reply(&twice, 100), opened.clone() + "FF00000010FF");
    let cut = [&open[..], &[3, 0, 0]].concat();
    checks.equal("a call that is cut short is broken", reply(&cut, 100), opened.clone() + "FF00000010FF");
    let cancelled = [&open[..], &[7]].concat();
    checks.equal("cancel", reply(&cancelled, 100), opened + "000000000005");

    let mut runner = Runner::new();
    let mut line = |line: &str| match read_call(line).and_then(|call| runner.call(&call)) {
        Some(reply) => reply_line(&reply),
        None => "broken".to_string(),
    };
    let expected = [
        ("draw", "broken"),
        ("open foyer 0 20 65536 3A -", "ok Done text - place 0 offset 0 record 010003050014"),
        ("open foyer 0 20 65536 3A -", "broken"),
        ("key none U+61", "ok Letter text 61 place 1 offset 0 record 00020361"),
        ("key none U+301", "ok Letter text 61.301 place 2 offset 0 record 000303CC81"),
        ("key none u+61", "broken"),
        ("paste 31E282", "refused 16 at 1 text 61.301 place 2 offset 0 record -"),
        ("finish 10 100 -", "ok Done history 61CC810A jump refused 21"),
    ];
    for (call, reply) in expected {
        checks.equal(&format!("line '{call}'"), line(call).as_str(), reply);
    }
}
