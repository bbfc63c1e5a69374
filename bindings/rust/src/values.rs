//! What the archive says of a line: the reader that took it and its values, as numbers.

use crate::raw;
use crate::refusal::{accepted, Refusal};

/// The numbers of the readers, as bindings/c/sim7000.h names them.
pub(crate) mod reader {
    pub const GENERIC_OK: u64 = 1;
    pub const SIM_ERROR: u64 = 2;
    pub const WRITE_PROMPT: u64 = 3;
    pub const CLOSE_OK: u64 = 4;
    pub const ICCID: u64 = 5;
    pub const SIGNAL_QUALITY: u64 = 6;
    pub const SYSTEM_INFO: u64 = 7;
    pub const OPERATOR_INFO: u64 = 8;
    pub const NETWORK_TIME: u64 = 9;
    pub const DOWNLOAD_INFO: u64 = 10;
    pub const IMEI: u64 = 11;
    pub const SMS_MESSAGE_FORMAT: u64 = 12;
    pub const SMS_MESSAGE: u64 = 13;
    pub const GNSS_REPORT: u64 = 14;
    pub const NETWORK_REGISTRATION: u64 = 15;
}

/// The reader's number, and its values behind it.
pub(crate) type Values = [u64; 20];

/// A lent line, of which texts are parts. The archive gives starts and ends inside the line and between characters; if it did not, the text would be empty.
pub(crate) trait Lent<'a>: Copy {
    fn part(self, start: u64, end: u64) -> &'a str;
}

impl<'a> Lent<'a> for &'a str {
    fn part(self, start: u64, end: u64) -> &'a str {
        self.get(start as usize..end as usize).unwrap_or("")
    }
}

impl<'a> Lent<'a> for &'a [u8] {
    fn part(self, start: u64, end: u64) -> &'a str {
        self.get(start as usize..end as usize).and_then(|part| core::str::from_utf8(part).ok()).unwrap_or("")
    }
}

/// What one reader answers.
pub(crate) trait Answer<'a>: Sized {
    const READER: u64;
    fn of(values: &Values, line: impl Lent<'a>) -> Self;
}

pub(crate) fn float(bits: u64) -> f32 {
    f32::from_bits(bits as u32)
}

pub(crate) fn option<T>(present: u64, value: T) -> Option<T> {
    (present == 1).then_some(value)
}

/// What all readers say.
pub(crate) fn read(line: &[u8]) -> Result<Values, Refusal> {
    let mut values = [0; 20];
    // The pointer goes with the slice's length, and `values` is lent to this call alone.
    accepted(unsafe { raw::sim7000_read_line(line.as_ptr(), line.len(), &mut values) })?;
    Ok(values)
}

/// What one reader alone says. No two accept the same line.
pub(crate) fn read_as<'a, T: Answer<'a>>(line: &'a str) -> Result<T, Refusal> {
    match read(line.as_bytes()) {
        Ok(values) if values[0] == T::READER => Ok(T::of(&values, line)),
        Err(refusal) if gives(T::READER, refusal, line) => Err(refusal),
        _ => Err(Refusal::NOT_ACCEPTED),
    }
}

/// Whether the number with which all readers refuse the line is this reader's too; else it is 3.
fn gives(reader: u64, refusal: Refusal, line: &str) -> bool {
    match refusal {
        Refusal::LINE_TOO_LONG | Refusal::LINE_NOT_UTF8 => true,
        Refusal::TEXT_IN_LINE_LONG => match reader {
            // the two whose texts have a greatest length, and each of them only in its own line
            reader::NETWORK_TIME => line.starts_with("+CNTP: "),
            reader::SMS_MESSAGE => line.starts_with("+CMGR: "),
            _ => false,
        },
        Refusal::NO_SUCH_DATE => reader == reader::GNSS_REPORT,
        _ => false,
    }
}
