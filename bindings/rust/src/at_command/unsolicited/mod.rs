//! The codes that the modem sends by itself.

mod network_registration;
mod ugnsinf;

pub use network_registration::{NetworkRegistration, RegistrationStatus};
pub use ugnsinf::{DateTime, GnssFix, GnssReport};

use crate::at_command::AtParseLine;
use crate::refusal::Refusal;
use crate::values::{self, reader, Answer, Values};

/// A code that the modem sends by itself.
#[derive(Debug, Clone, Copy, PartialEq)]
#[non_exhaustive]
pub enum Urc {
    /// `+UGNSINF: ` and the report of the satellite receiver.
    GnssReport(GnssReport),
    /// `+CREG: `, `+CGREG: ` or `+CEREG: ` and the registration.
    NetworkRegistration(NetworkRegistration),
}

impl Urc {
    /// `None` where the reader is none of the unsolicited codes'.
    pub(crate) fn of(v: &Values) -> Option<Self> {
        Some(match v[0] {
            reader::GNSS_REPORT => Urc::GnssReport(GnssReport::of(v, "")),
            reader::NETWORK_REGISTRATION => Urc::NetworkRegistration(NetworkRegistration::of(v, "")),
            _ => return None,
        })
    }

    /// Reads a line without its CR LF, as the first of the four readers that takes it. Refused are a line of more than 256 bytes (1), a fix without a date
    /// that exists (13), and what no unsolicited code is, every response too (3).
    ///
    /// ```
    /// use sim7000::{Refusal, RegistrationStatus, Urc};
    ///
    /// match Urc::from_line("+CEREG: 5") {
    ///     Ok(Urc::NetworkRegistration(registration)) => assert_eq!(registration.status, RegistrationStatus::RegisteredRoaming),
    ///     other => panic!("{:?}", other),
    /// }
    /// assert_eq!(Urc::from_line("OK"), Err(Refusal::NOT_ACCEPTED));
    /// ```
    pub fn from_line(line: &str) -> Result<Self, Refusal> {
        match values::read(line.as_bytes()) {
            Ok(values) => Urc::of(&values).ok_or(Refusal::NOT_ACCEPTED),
            // the texts that can be too long are those of responses
            Err(Refusal::TEXT_IN_LINE_LONG) => Err(Refusal::NOT_ACCEPTED),
            Err(refusal) => Err(refusal),
        }
    }
}

impl<'a> AtParseLine<'a> for Urc {
    fn from_line(line: &'a str) -> Result<Self, Refusal> {
        Urc::from_line(line)
    }
}
