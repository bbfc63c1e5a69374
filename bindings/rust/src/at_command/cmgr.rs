//! AT+CMGR: a message of the modem's storage.

use crate::at_command::{AtRequest, GenericOk};
use crate::refusal::Refusal;
use crate::request::Request;
use crate::values::{reader, Answer, Lent, Values};

/// `AT+CMGR=<index>`: asks for a message.
#[derive(Debug, Clone, Copy, PartialEq, Eq)]
pub struct ReadSms {
    /// Its place in the modem's storage.
    pub index: u8,
}

impl<'l> AtRequest<'l> for ReadSms {
    type Response = (SmsMessage<'l>, GenericOk);
    fn encode<'o>(&self, out: &'o mut [u8]) -> Result<&'o [u8], Refusal> {
        Request::from(*self).encode(out)
    }
}

/// The head of a message. Its text comes in the lines behind it, and is not read here.
#[derive(Debug, Clone, Copy, PartialEq, Eq)]
pub struct SmsMessage<'a> {
    /// Who sent it, without quotes: at most 20 bytes.
    pub sender: &'a str,
    /// Always empty, as in the published program.
    pub message: &'a str,
}

impl<'a> Answer<'a> for SmsMessage<'a> {
    const READER: u64 = reader::SMS_MESSAGE;
    fn of(v: &Values, line: impl Lent<'a>) -> Self {
        SmsMessage { sender: line.part(v[1], v[2]), message: "" }
    }
}

from_line! { SmsMessage<'a> "1, 4 where the sender is too long, or 3" }
