//! The list that the program `captures` replays in the gate, through `Desk`: every step, in the script language of oracle/README.md, and every line
//! that is printed of it. By `feed` and by `hear`, and by each with the chunks as they stand and cut into single bytes.
//!
//! A `Desk` cannot be given old bytes. Where the step `x` asks for such, one is taken that held them in a line, sent the longest command, and was
//! reset; the text and command buffers are filled as asked. The desk's other old bytes are in parts.rs.

mod common;

use common::{list, request};
use sim7000::*;

/// Of a capture; a longer one is a single step, which is unknown.
const LONGEST: usize = 32767;

/// How the chunks are fed.
#[derive(Debug, Clone, Copy)]
struct Way {
    hear: bool,
    /// The most at a time.
    chunk: usize,
}

struct Play {
    desk: Desk,
    text: [u8; LONGEST_LINE],
    command: [u8; 256],
    /// What an open is lent of the command buffer.
    room: usize,
    way: Way,
    said: Vec<String>,
}

fn hex(bytes: &[u8]) -> String {
    bytes.iter().map(|byte| format!("{:02x}", byte)).collect()
}

/// The bytes behind a step's letter, or none where they are not spelled two digits each.
fn bytes(hex: &[u8]) -> Option<Vec<u8>> {
    let digit = |digit: u8| (digit as char).to_digit(16);
    hex.chunks(2).map(|two| Some((digit(two[0])? * 16 + digit(*two.get(1)?)?) as u8)).collect()
}

fn said_of(heard: Heard) -> String {
    let (word, number) = match heard.event {
        Event::Unsolicited => ("unsolicited", None),
        Event::Taken => ("taken", None),
        Event::Done => ("done", None),
        Event::Short => ("short", None),
        Event::Failed => ("failed", None),
        Event::Stray(refusal) => ("stray", Some(refusal.map_or(0, |why| why.0))),
        Event::Overlong => ("overlong", None),
        Event::Echo => ("echo", None),
        other => panic!("{:?}", other),
    };
    let mut words = vec![word.to_string(), heard.ordinal.to_string()];
    words.extend(number.map(|number| number.to_string()));
    if !heard.line.is_empty() {
        words.push(hex(heard.line));
    }
    words.join(" ")
}

fn refused(refusal: Refusal) -> String {
    format!("refused {}", refusal.0)
}

/// A desk that is new but for the bytes that mean nothing: the line is all `old` where that is no LF.
fn aged(old: u8) -> Desk {
    let (mut desk, mut out, mut text) = (Desk::new(), [0; LONGEST_COMMAND], [0; LONGEST_LINE]);
    let sent = desk.open_echo(Request::DownloadToFileSystem { url: &[b'u'; 64], file_path: &[b'f'; 32] }, &mut out);
    assert!(sent.is_ok());
    assert!(desk.hear(&[old; LONGEST_LINE + 1], &mut text).next().is_none());
    desk.reset();
    desk
}

impl Play {
    fn new(way: Way) -> Self {
        Play { desk: Desk::new(), text: [0; LONGEST_LINE], command: [0; 256], room: 256, way, said: Vec::new() }
    }

    fn open(&mut self, echo: bool, asked: &[u8]) {
        let out = &mut self.command[..self.room];
        let said = match (request(asked), echo) {
            (None, _) => return self.said.push("unknown".to_string()),
            (Some(request), false) => self.desk.open(request, out),
            (Some(request), true) => self.desk.open_echo(request, out),
        };
        self.said.push(said.map_or_else(refused, |command| format!("open {}", hex(command))));
    }

    fn feed(&mut self, chunk: &[u8]) {
        let mut rest = chunk;
        while !rest.is_empty() {
            let fed = self.desk.feed(rest, &mut self.text).unwrap();
            assert!((1..=rest.len()).contains(&fed.taken), "{:?}", fed);
            rest = &rest[fed.taken..];
            self.said.extend(fed.heard.map(said_of));
        }
    }

    fn hear(&mut self, chunk: &[u8]) {
        let mut hearing = self.desk.hear(chunk, &mut self.text);
        while let Some(heard) = hearing.next() {
            self.said.push(said_of(heard));
        }
        assert_eq!(hearing.rest(), b"");
    }

    /// One byte of the text buffer is not lent.
    fn feed_short(&mut self, chunk: &[u8]) {
        let fed = self.desk.feed(chunk, &mut self.text[..LONGEST_LINE - 1]);
        self.said.push(fed.map_or_else(refused, |fed| format!("{:?}", fed)));
    }

    fn fill(&mut self, old: u8) {
        self.desk = aged(old);
        self.text.fill(old);
        self.command.fill(old);
    }

    fn step(&mut self, step: &[u8], is_first: bool) {
        let (letter, given) = step.split_first().map_or((0, None), |(letter, hex)| (*letter, bytes(hex)));
        match (letter, given.as_deref()) {
            (b'x', Some(&[old])) if is_first => self.fill(old),
            (b'l', Some(&[room])) => self.room = usize::from(room),
            (b'o', Some(asked)) => self.open(false, asked),
            (b'e', Some(asked)) => self.open(true, asked),
            (b'f', Some(all)) => {
                for chunk in all.chunks(self.way.chunk) {
                    if self.way.hear {
                        self.hear(chunk);
                    } else {
                        self.feed(chunk);
                    }
                }
            }
            (b's', Some(chunk)) => self.feed_short(chunk),
            (b'r', Some([])) => self.desk.reset(),
            (b't', Some([])) => self.said.push(format!("text {}", hex(&self.text))),
            (b'c', Some([])) => self.said.push(format!("command {}", hex(&self.command))),
            _ => self.said.push("unknown".to_string()),
        }
    }
}

fn said_of_capture(line: &[u8], way: Way) -> Vec<String> {
    let mut play = Play::new(way);
    let line = if line.len() > LONGEST { &b""[..] } else { line };
    for (at, step) in line.split(|&byte| byte == b' ').enumerate() {
        play.step(step, at == 0);
    }
    play.said.push(if play.desk.is_open() { "end open" } else { "end idle" }.to_string());
    play.said
}

fn replay(hear: bool) {
    let (asked, answered) = (list("captures/stdin"), list("captures/stdout"));
    assert!(asked.len() >= 500);
    for chunk in [LONGEST, 1] {
        let (way, mut answers) = (Way { hear, chunk }, answered.iter());
        for (at, line) in asked.iter().enumerate() {
            let ours = said_of_capture(line, way);
            let theirs: Vec<_> = answers.by_ref().take(ours.len()).map(|answer| String::from_utf8_lossy(answer)).collect();
            assert_eq!(ours, theirs, "capture {}, {:?}: {}", at + 1, way, line.escape_ascii());
        }
        assert_eq!(answers.next(), None);
    }
}

#[test]
fn by_feed() {
    replay(false);
}

#[test]
fn by_hear() {
    replay(true);
}
