use crate::desk::{Desk, Heard};
use crate::LONGEST_LINE;

/// A slice of a modem's bytes while a desk is fed with it, one event after the other: see [`Desk::hear`].
///
/// The bytes of an event are taken when [`next`](Hearing::next) gives it, and those behind the last event when it gives `None`. Whoever stops earlier, or drops
/// this, has still to feed what [`rest`](Hearing::rest) gives: bytes that are not fed are lost to the desk.
#[derive(Debug)]
#[must_use = "bytes are fed by `next` alone"]
pub struct Hearing<'d, 'b> {
    desk: &'d mut Desk,
    rest: &'b [u8],
    text: &'d mut [u8; LONGEST_LINE],
}

impl<'d, 'b> Hearing<'d, 'b> {
    pub(crate) fn new(desk: &'d mut Desk, rest: &'b [u8], text: &'d mut [u8; LONGEST_LINE]) -> Self {
        Hearing { desk, rest, text }
    }

    /// The next event, or `None` when all bytes are taken and no further line ended. This is no `Iterator`: the line is lent from the text buffer, and only
    /// until the next call.
    pub fn next<'h>(&'h mut self) -> Option<Heard<'h>> {
        if self.rest.is_empty() {
            return None;
        }
        // No feed with so long a text buffer is refused.
        let fed = self.desk.feed(self.rest, &mut self.text[..]).ok()?;
        self.rest = self.rest.get(fed.taken..).unwrap_or(&[]);
        fed.heard
    }

    /// The bytes that are not taken yet: none after `next` gave `None`.
    pub fn rest(&self) -> &'b [u8] {
        self.rest
    }

    /// The desk, between two events: to open the next command behind a [`Done`](crate::Event::Done), or to reset.
    pub fn desk(&mut self) -> &mut Desk {
        self.desk
    }
}
