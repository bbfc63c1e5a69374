//! AT+CCID: the number of the SIM card.

use crate::at_command::{AtRequest, GenericOk};
use crate::refusal::Refusal;
use crate::request::Request;
use crate::values::{reader, Answer, Lent, Values};

/// `AT+CCID`: asks for the card's number.
#[derive(Debug, Clone, Copy, PartialEq, Eq)]
pub struct ShowIccid;

impl<'l> AtRequest<'l> for ShowIccid {
    type Response = (Iccid, GenericOk);
    fn encode<'o>(&self, out: &'o mut [u8]) -> Result<&'o [u8], Refusal> {
        Request::from(*self).encode(out)
    }
}

/// The number of a SIM card, behind its first two digits, which are 89.
#[derive(Debug, Clone, Copy, PartialEq, Eq)]
pub struct Iccid {
    /// The two digits of the country.
    pub country: u8,
    /// The two digits of the issuer.
    pub issuer: u8,
    /// All digits behind them, the check digit too where there is one.
    pub account: u64,
}

impl<'a> Answer<'a> for Iccid {
    const READER: u64 = reader::ICCID;
    fn of(v: &Values, _: impl Lent<'a>) -> Self {
        Iccid { country: v[1] as u8, issuer: v[2] as u8, account: v[3] }
    }
}

from_line! { Iccid "1 or 3" }
