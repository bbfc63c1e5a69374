//! AT+GSN: the number of the equipment.

use crate::at_command::{AtRequest, GenericOk};
use crate::refusal::Refusal;
use crate::request::Request;
use crate::values::{reader, Answer, Lent, Values};

/// `AT+GSN`: asks for the equipment's number.
#[derive(Debug, Clone, Copy, PartialEq, Eq)]
pub struct GetImei;

impl<'l> AtRequest<'l> for GetImei {
    type Response = (Imei<'l>, GenericOk);
    fn encode<'o>(&self, out: &'o mut [u8]) -> Result<&'o [u8], Refusal> {
        Request::from(*self).encode(out)
    }
}

/// The number of the equipment, the whole line (TS 23.003, 6.2).
#[derive(Debug, Clone, Copy, PartialEq, Eq)]
pub struct Imei<'a> {
    /// Fifteen digits, or sixteen.
    pub imei: &'a str,
    /// Sixteen digits are a version number (IMEISV), whose last two are the software's version; fifteen are an IMEI, whose last one is the check digit.
    pub is_version_number: bool,
}

impl<'a> Answer<'a> for Imei<'a> {
    const READER: u64 = reader::IMEI;
    fn of(v: &Values, line: impl Lent<'a>) -> Self {
        Imei { imei: line.part(v[1], v[2]), is_version_number: v[3] == 1 }
    }
}

from_line! { Imei<'a> "1 or 3" }
