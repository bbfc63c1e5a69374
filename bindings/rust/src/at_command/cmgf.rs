//! AT+CMGF: in which format messages are handed out.

use crate::at_command::{AtRequest, GenericOk};
use crate::refusal::Refusal;
use crate::request::Request;
use crate::values::{reader, Answer, Lent, Values};

/// `AT+CMGF=<format>`: sets the format.
#[derive(Debug, Clone, Copy, PartialEq, Eq)]
pub struct SetSmsMessageFormat(
    /// The format from now on.
    pub SmsMessageFormat,
);

impl<'l> AtRequest<'l> for SetSmsMessageFormat {
    type Response = GenericOk;
    fn encode<'o>(&self, out: &'o mut [u8]) -> Result<&'o [u8], Refusal> {
        Request::from(*self).encode(out)
    }
}

/// `AT+CMGF?`: asks for the format.
#[derive(Debug, Clone, Copy, PartialEq, Eq)]
pub struct GetSmsMessageFormat;

impl<'l> AtRequest<'l> for GetSmsMessageFormat {
    type Response = (SmsMessageFormat, GenericOk);
    fn encode<'o>(&self, out: &'o mut [u8]) -> Result<&'o [u8], Refusal> {
        Request::from(*self).encode(out)
    }
}

/// How the modem hands out messages.
#[repr(u8)]
#[derive(Debug, Clone, Copy, PartialEq, Eq)]
pub enum SmsMessageFormat {
    /// As protocol data units.
    Pdu = 0,
    /// As text.
    Text = 1,
}

impl<'a> Answer<'a> for SmsMessageFormat {
    const READER: u64 = reader::SMS_MESSAGE_FORMAT;
    fn of(v: &Values, _: impl Lent<'a>) -> Self {
        match v[1] {
            0 => SmsMessageFormat::Pdu,
            _ => SmsMessageFormat::Text,
        }
    }
}

from_line! { SmsMessageFormat "1 or 3" }
