//! AT+CSQ: the signal.

use crate::at_command::{AtRequest, GenericOk};
use crate::refusal::Refusal;
use crate::request::Request;
use crate::values::{float, option, reader, Answer, Lent, Values};

/// `AT+CSQ`: asks for the signal's strength and quality.
#[derive(Debug, Clone, Copy, PartialEq, Eq)]
pub struct GetSignalQuality;

impl<'l> AtRequest<'l> for GetSignalQuality {
    type Response = (SignalQuality, GenericOk);
    fn encode<'o>(&self, out: &'o mut [u8]) -> Result<&'o [u8], Refusal> {
        Request::from(*self).encode(out)
    }
}

/// The signal, in percent; `None` where the modem does not know (99).
#[derive(Debug, Clone, Copy, PartialEq)]
pub struct SignalQuality {
    /// 0.0 at -115 dBm to 100.0 at -52 dBm.
    pub signal_strength: Option<f32>,
    /// 100.0 less the rate of bit errors.
    pub signal_quality: Option<f32>,
}

impl<'a> Answer<'a> for SignalQuality {
    const READER: u64 = reader::SIGNAL_QUALITY;
    fn of(v: &Values, _: impl Lent<'a>) -> Self {
        SignalQuality { signal_strength: option(v[1], float(v[2])), signal_quality: option(v[3], float(v[4])) }
    }
}

from_line! { SignalQuality "1 or 3" }
