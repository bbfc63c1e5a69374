//! Requests and the responses to them, a module for each file of the published at_command. What that names at its root is named here.

use core::fmt::Debug;

use crate::refusal::Refusal;
use crate::values::{self, reader, Answer, Lent, Values};

/// `from_line` of an answer, as its own function and as the trait's; the text lists the numbers that it refuses with.
macro_rules! from_line {
    ($name:ident $numbers:literal) => {
        impl $name {
            #[doc = concat!("Reads a line without its CR LF. A line of another kind is refused; the numbers are ", $numbers, ".")]
            pub fn from_line(line: &str) -> Result<Self, $crate::Refusal> {
                $crate::values::read_as(line)
            }
        }

        impl<'a> $crate::at_command::AtParseLine<'a> for $name {
            fn from_line(line: &'a str) -> Result<Self, $crate::Refusal> {
                $crate::values::read_as(line)
            }
        }
    };
    ($name:ident<'a> $numbers:literal) => {
        impl<'a> $name<'a> {
            #[doc = concat!("Reads a line without its CR LF. A line of another kind is refused; the numbers are ", $numbers, ".")]
            pub fn from_line(line: &'a str) -> Result<Self, $crate::Refusal> {
                $crate::values::read_as(line)
            }
        }

        impl<'a> $crate::at_command::AtParseLine<'a> for $name<'a> {
            fn from_line(line: &'a str) -> Result<Self, $crate::Refusal> {
                $crate::values::read_as(line)
            }
        }
    };
}

pub mod ccid;
pub mod cmgf;
pub mod cmgr;
pub mod cntp;
pub mod cops;
pub mod cpsi;
pub mod csq;
pub mod generic_response;
pub mod gsn;
pub mod httptofs;
pub mod unsolicited;

pub use ccid::{Iccid, ShowIccid};
pub use cmgf::{GetSmsMessageFormat, SetSmsMessageFormat, SmsMessageFormat};
pub use cntp::{Execute, SynchronizeNetworkTime};
pub use cops::{GetOperatorInfo, OperatorFormat, OperatorInfo, OperatorMode, SetAutomaticOperator, SetManualOperator};
pub use cpsi::{GetSystemInfo, SystemInfo, SystemMode};
pub use csq::{GetSignalQuality, SignalQuality};
pub use generic_response::{CloseOk, GenericOk, SimError, WritePrompt};
pub use gsn::{GetImei, Imei};
pub use httptofs::DownloadToFileSystem;

use cmgr::SmsMessage;
use cntp::NetworkTime;
use httptofs::DownloadInfo;

/// What a line can be read as. Every such type has the function of its own as well, so this is for code that is generic over them.
///
/// Each gives the number that its reader alone gives: 1 for a line of more than 256 bytes; 4 from [`ResponseCode`], and from [`cntp::NetworkTime`] or
/// [`cmgr::SmsMessage`] where the text that is too long is its own; 13 from [`unsolicited::Urc`] and [`unsolicited::GnssReport`]; else 3.
pub trait AtParseLine<'a>: Sized {
    /// Reads a line without its CR LF.
    fn from_line(line: &'a str) -> Result<Self, Refusal>;
}

/// A request: what it is answered with, and its command. The lifetime is that of the lines that answer it.
pub trait AtRequest<'l>: Debug {
    /// The answers that a [`Desk`](crate::Desk) awaits, in their order.
    type Response;

    /// Writes the command to the front of `out`, and gives the part of it that was written. Refuses as [`Request::encode`](crate::Request::encode) does.
    fn encode<'o>(&self, out: &'o mut [u8]) -> Result<&'o [u8], Refusal>;
}

/// A response to a command. The variants stand in the order in which the readers are asked.
#[derive(Debug, Clone, Copy, PartialEq)]
#[non_exhaustive]
pub enum ResponseCode<'a> {
    /// `OK`, or `SHUT OK`.
    Ok(GenericOk),
    /// An error.
    Error(SimError),
    /// `> `.
    WritePrompt(WritePrompt),
    /// A connection is closed.
    CloseOk(CloseOk),
    /// The number of the SIM card.
    Iccid(Iccid),
    /// `+CSQ: ` and the signal.
    SignalQuality(SignalQuality),
    /// `+CPSI: ` and the system's state.
    SystemInfo(SystemInfo),
    /// `+COPS: ` and the operator.
    OperatorInfo(OperatorInfo<'a>),
    /// `+CNTP: ` and the network's time.
    NetworkTime(NetworkTime<'a>),
    /// `+HTTPTOFS: ` and what became of a download.
    DownloadInfo(DownloadInfo),
    /// The number of the equipment.
    Imei(Imei<'a>),
    /// `+CMGF: ` and the format of messages.
    SmsMessageFormat(SmsMessageFormat),
    /// `+CMGR: ` and a message's head.
    SmsMessage(SmsMessage<'a>),
}

impl<'a> ResponseCode<'a> {
    /// `None` where the reader is none of the responses'.
    pub(crate) fn of(v: &Values, line: impl Lent<'a>) -> Option<Self> {
        Some(match v[0] {
            reader::GENERIC_OK => ResponseCode::Ok(GenericOk::of(v, line)),
            reader::SIM_ERROR => ResponseCode::Error(SimError::of(v, line)),
            reader::WRITE_PROMPT => ResponseCode::WritePrompt(WritePrompt::of(v, line)),
            reader::CLOSE_OK => ResponseCode::CloseOk(CloseOk::of(v, line)),
            reader::ICCID => ResponseCode::Iccid(Iccid::of(v, line)),
            reader::SIGNAL_QUALITY => ResponseCode::SignalQuality(SignalQuality::of(v, line)),
            reader::SYSTEM_INFO => ResponseCode::SystemInfo(SystemInfo::of(v, line)),
            reader::OPERATOR_INFO => ResponseCode::OperatorInfo(OperatorInfo::of(v, line)),
            reader::NETWORK_TIME => ResponseCode::NetworkTime(NetworkTime::of(v, line)),
            reader::DOWNLOAD_INFO => ResponseCode::DownloadInfo(DownloadInfo::of(v, line)),
            reader::IMEI => ResponseCode::Imei(Imei::of(v, line)),
            reader::SMS_MESSAGE_FORMAT => ResponseCode::SmsMessageFormat(SmsMessageFormat::of(v, line)),
            reader::SMS_MESSAGE => ResponseCode::SmsMessage(SmsMessage::of(v, line)),
            _ => return None,
        })
    }

    /// Reads a line without its CR LF, as the first of the thirteen readers that takes it. Refused are a line of more than 256 bytes (1), one with a text that
    /// is too long (4), and what no response is, every unsolicited line too (3).
    ///
    /// ```
    /// use sim7000::{Refusal, ResponseCode};
    ///
    /// let line = String::from("490154203237518");
    /// match ResponseCode::from_line(&line) {
    ///     Ok(ResponseCode::Imei(imei)) => assert_eq!(imei.imei, line),
    ///     other => panic!("{:?}", other),
    /// }
    /// assert_eq!(ResponseCode::from_line("+CREG: 1"), Err(Refusal::NOT_ACCEPTED));
    /// ```
    pub fn from_line(line: &'a str) -> Result<Self, Refusal> {
        match values::read(line.as_bytes()) {
            Ok(values) => ResponseCode::of(&values, line).ok_or(Refusal::NOT_ACCEPTED),
            // to the responses a satellite report is any other line
            Err(Refusal::NO_SUCH_DATE) => Err(Refusal::NOT_ACCEPTED),
            Err(refusal) => Err(refusal),
        }
    }
}

impl<'a> AtParseLine<'a> for ResponseCode<'a> {
    fn from_line(line: &'a str) -> Result<Self, Refusal> {
        ResponseCode::from_line(line)
    }
}
