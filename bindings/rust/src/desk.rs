use crate::hearing::Hearing;
use crate::raw;
use crate::refusal::{accepted, Refusal};
use crate::request::{front, Request};
use crate::LONGEST_LINE;

/// Cuts a modem's bytes into lines and gives each to the open command, the unsolicited codes or the strays.
#[derive(Debug, Clone)]
pub struct Desk {
    line: [u8; 257],
    sent: [u8; 210],
    state: [u64; 4],
}

/// What a line is to the command that is open.
#[derive(Debug, Clone, Copy, PartialEq, Eq)]
#[non_exhaustive]
pub enum Event {
    /// An unsolicited line.
    Unsolicited,
    /// An awaited answer, with another awaited after it.
    Taken,
    /// The last awaited answer; the command is closed.
    Done,
    /// OK, with another answer awaited; the command is closed.
    Short,
    /// An error; the command is closed.
    Failed,
    /// Any other line: why no reader takes it, or `None` (the documents' 0) where one does and nobody awaits it.
    Stray(Option<Refusal>),
    /// The end of a line of more than 256 bytes, which was dropped.
    Overlong,
    /// The command of [`Desk::open_echo`] as the modem sent it back; the line may end with a CR.
    Echo,
}

/// An event, with the line that it tells of.
#[derive(Debug, Clone, Copy, PartialEq, Eq)]
#[non_exhaustive]
pub struct Heard<'t> {
    /// What the line is.
    pub event: Event,
    /// Which line it is, to find it in a capture: lines are counted from 1 at the last accepted open, in either mode, or reset, and for a new desk
    /// from its start. Empty ones are left out; overlong ones are counted, and so is a prompt, `> ` where a line begins, which is a line as soon as
    /// it is there. At `u32::MAX` it stays.
    pub ordinal: u32,
    /// The line, which is empty at [`Event::Overlong`]. [`Line::from_line`](crate::Line::from_line) says what stands in it.
    pub line: &'t [u8],
}

impl<'t> Heard<'t> {
    /// The line as a text, or `None` where it is not UTF-8. It is UTF-8 at every event but [`Event::Stray`] with [`Refusal::LINE_NOT_UTF8`].
    pub fn text(&self) -> Option<&'t str> {
        core::str::from_utf8(self.line).ok()
    }
}

/// What a feed tells: how many bytes it took and, where one of them yielded an event, the event with its line.
#[derive(Debug, Clone, Copy, PartialEq, Eq)]
#[non_exhaustive]
pub struct Fed<'t> {
    /// The bytes taken: up to and with the one that yields the event, or all.
    pub taken: usize,
    /// The event, its line's ordinal and its line.
    pub heard: Option<Heard<'t>>,
}

impl Default for Desk {
    fn default() -> Self {
        Desk::new()
    }
}

impl Desk {
    /// Idle, holding nothing; its first line is 1.
    pub const fn new() -> Self {
        Desk { line: [0; 257], sent: [0; 210], state: [0; 4] }
    }

    /// Whether a command is open.
    pub fn is_open(&self) -> bool {
        // `state` is only read.
        unsafe { raw::sim7000_is_open(&self.state) == 1 }
    }

    /// Writes the command to the front of `out`, awaits its answers and counts lines from 1 again; what was written is for the modem. Refused are, in this
    /// order, an open while a command is open (8) or an unfinished line is held or being dropped (9), and then what [`Request::encode`] refuses; desk and
    /// buffer then stay as before.
    ///
    /// `request` is a [`Request`], a reference to one, or one of the published structs.
    ///
    /// ```
    /// use sim7000::{Desk, GetImei, Refusal, Request};
    ///
    /// let (mut desk, mut out) = (Desk::new(), [0; sim7000::LONGEST_COMMAND]);
    /// assert_eq!(desk.open(GetImei, &mut out), Ok(&b"AT+GSN\r"[..]));
    /// assert_eq!(desk.open(&Request::GetImei, &mut out), Err(Refusal::COMMAND_OPEN));
    /// ```
    pub fn open<'r, 'o>(&mut self, request: impl Into<Request<'r>>, out: &'o mut [u8]) -> Result<&'o [u8], Refusal> {
        let p = request.into().parameters();
        let mut size = 0;
        // Each pointer goes with its slice's length, and `state`, `out` and `size` are lent to this call alone.
        let answer = unsafe {
            raw::sim7000_open(
                &mut self.state,
                p.request,
                p.number,
                p.code,
                p.first.as_ptr(),
                p.first.len(),
                p.second.as_ptr(),
                p.second.len(),
                out.as_mut_ptr(),
                out.len(),
                &mut size,
            )
        };
        accepted(answer)?;
        Ok(front(out, size))
    }

    /// As [`open`](Desk::open), for a modem with echo on (ATE1): until the command comes back as a line, its last CR there or not, a response or an error is a
    /// late one, `Stray(None)`; that line is [`Event::Echo`], counted like any other, and from then on all is as after `open`. The desk keeps the command, so
    /// `out` is free.
    pub fn open_echo<'r, 'o>(&mut self, request: impl Into<Request<'r>>, out: &'o mut [u8]) -> Result<&'o [u8], Refusal> {
        let p = request.into().parameters();
        let mut size = 0;
        // As in `open`; `sent` too is lent to this call alone.
        let answer = unsafe {
            raw::sim7000_open_echo(
                &mut self.state,
                &mut self.sent,
                p.request,
                p.number,
                p.code,
                p.first.as_ptr(),
                p.first.len(),
                p.second.as_ptr(),
                p.second.len(),
                out.as_mut_ptr(),
                out.len(),
                &mut size,
            )
        };
        accepted(answer)?;
        Ok(front(out, size))
    }

    /// Feeds the whole slice: each [`next`](Hearing::next) of what is returned gives the next event, until all bytes are taken. The line of an event stands in
    /// `text` until the next one.
    ///
    /// ```
    /// use sim7000::{Desk, Event, GetSignalQuality, LONGEST_COMMAND, LONGEST_LINE};
    ///
    /// let (mut desk, mut out, mut text) = (Desk::new(), [0; LONGEST_COMMAND], [0; LONGEST_LINE]);
    /// desk.open(GetSignalQuality, &mut out)?;
    /// let mut hearing = desk.hear(b"\r\n+CEREG: 5\r\n\r\n+CSQ: 31,99\r\n\r\nOK\r\n+CS", &mut text);
    /// let mut events = Vec::new();
    /// while let Some(heard) = hearing.next() {
    ///     events.push((heard.event, heard.ordinal));
    /// }
    /// assert_eq!(events, [(Event::Unsolicited, 1), (Event::Taken, 2), (Event::Done, 3)]);
    /// # Ok::<(), sim7000::Refusal>(())
    /// ```
    pub fn hear<'d, 'b>(&'d mut self, bytes: &'b [u8], text: &'d mut [u8; LONGEST_LINE]) -> Hearing<'d, 'b> {
        Hearing::new(self, bytes, text)
    }

    /// Takes bytes up to and with the first that yields an event, or all of them; refuses where `text` has fewer than 256 bytes (10). The line fills the front
    /// of `text`. [`hear`](Desk::hear) goes on with the rest by itself.
    pub fn feed<'t>(&mut self, chunk: &[u8], text: &'t mut [u8]) -> Result<Fed<'t>, Refusal> {
        let (line, state, mut told) = (&mut self.line, &mut self.state, [0; 5]);
        // As in `open`; `sent` and `chunk` are only read.
        let answer = unsafe { raw::sim7000_feed(line, state, &self.sent, chunk.as_ptr(), chunk.len(), text.as_mut_ptr(), text.len(), &mut told) };
        accepted(answer)?;
        let event = match told[0] {
            0 => return Ok(Fed { taken: told[1] as usize, heard: None }),
            1 => Event::Unsolicited,
            2 => Event::Taken,
            3 => Event::Done,
            4 => Event::Short,
            5 => Event::Failed,
            6 => Event::Stray(Refusal::of(told[3] as u8)),
            7 => Event::Overlong,
            _ => Event::Echo,
        };
        // An ordinal is at most 4,294,967,295.
        let heard = Heard { event, ordinal: told[4] as u32, line: front(text, told[2]) };
        Ok(Fed { taken: told[1] as usize, heard: Some(heard) })
    }

    /// Closes the command, awaits no echo, forgets an unfinished line, one being dropped too, and counts lines from 1 again.
    pub fn reset(&mut self) {
        // `state` is lent to this call alone.
        unsafe { raw::sim7000_reset(&mut self.state) }
    }
}
