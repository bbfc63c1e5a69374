use crate::values::{option, reader, Answer, Lent, Values};

/// Whether the modem is registered in a network, and where: of the line +CREG, +CGREG or +CEREG.
#[derive(Debug, Clone, Copy, PartialEq, Eq)]
pub struct NetworkRegistration {
    /// Whether it is registered.
    pub status: RegistrationStatus,
    /// The area's code, where the line has one; never of +CEREG.
    pub lac: Option<u16>,
    /// The cell's number, where the line has one; never of +CEREG.
    pub ci: Option<u32>,
}

/// Whether the modem is registered.
#[derive(Debug, Clone, Copy, PartialEq, Eq)]
pub enum RegistrationStatus {
    /// No, and it searches for no network: 0, and every number that is none of the others.
    NotRegistered,
    /// In its own network: 1.
    RegisteredHome,
    /// Not yet, it searches: 2.
    Searching,
    /// No, the network has refused it: 3.
    RegistrationDenied,
    /// The modem does not know: 4.
    Unknown,
    /// In another network: 5.
    RegisteredRoaming,
}

impl<'a> Answer<'a> for NetworkRegistration {
    const READER: u64 = reader::NETWORK_REGISTRATION;
    fn of(v: &Values, _: impl Lent<'a>) -> Self {
        let status = match v[1] {
            1 => RegistrationStatus::RegisteredHome,
            2 => RegistrationStatus::Searching,
            3 => RegistrationStatus::RegistrationDenied,
            4 => RegistrationStatus::Unknown,
            5 => RegistrationStatus::RegisteredRoaming,
            _ => RegistrationStatus::NotRegistered,
        };
        NetworkRegistration { status, lac: option(v[2], v[3] as u16), ci: option(v[4], v[5] as u32) }
    }
}

from_line! { NetworkRegistration "1 or 3" }
