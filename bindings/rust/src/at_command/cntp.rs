//! AT+CNTP: the time of the network.

use crate::at_command::{AtRequest, GenericOk};
use crate::refusal::Refusal;
use crate::request::Request;
use crate::values::{option, reader, Answer, Lent, Values};

/// `AT+CNTP="<ntp_server>",<timezone>,<cid>`: sets where the time is asked for.
#[derive(Debug, Clone, Copy, PartialEq, Eq)]
pub struct SynchronizeNetworkTime<'a> {
    /// The server's name or address: at most 64 bytes, each 32 to 126.
    pub ntp_server: &'a str,
    /// The time zone, in quarters of an hour.
    pub timezone: u16,
    /// The bearer profile.
    pub cid: u8,
}

/// `AT+CNTP`: asks the server for the time.
#[derive(Debug, Clone, Copy, PartialEq, Eq)]
pub struct Execute;

impl<'l> AtRequest<'l> for SynchronizeNetworkTime<'_> {
    type Response = GenericOk;
    fn encode<'o>(&self, out: &'o mut [u8]) -> Result<&'o [u8], Refusal> {
        Request::from(*self).encode(out)
    }
}

impl<'l> AtRequest<'l> for Execute {
    type Response = (GenericOk, NetworkTime<'l>);
    fn encode<'o>(&self, out: &'o mut [u8]) -> Result<&'o [u8], Refusal> {
        Request::from(*self).encode(out)
    }
}

/// How a request for the time went, with the line's number for it.
#[derive(Debug, Clone, Copy, PartialEq, Eq)]
pub enum SyncNtpStatusCode {
    /// The time was set.
    Success = 1,
    /// The network failed.
    NetworkError = 61,
    /// The server's name was not found.
    DnsResolutionError = 62,
    /// The server was not reached.
    ConnectionError = 63,
    /// The server's answer was bad.
    ServiceResponseError = 64,
    /// The server did not answer in time.
    ServiceResponseTimeout = 65,
}

/// What became of a request for the time.
#[derive(Debug, Clone, Copy, PartialEq, Eq)]
pub struct NetworkTime<'a> {
    /// How it went.
    pub code: SyncNtpStatusCode,
    /// The time as the modem writes it, quotes and all, where the line has one: at most 32 bytes.
    pub time: Option<&'a str>,
}

impl<'a> Answer<'a> for NetworkTime<'a> {
    const READER: u64 = reader::NETWORK_TIME;
    fn of(v: &Values, line: impl Lent<'a>) -> Self {
        let code = match v[1] {
            1 => SyncNtpStatusCode::Success,
            61 => SyncNtpStatusCode::NetworkError,
            62 => SyncNtpStatusCode::DnsResolutionError,
            63 => SyncNtpStatusCode::ConnectionError,
            64 => SyncNtpStatusCode::ServiceResponseError,
            _ => SyncNtpStatusCode::ServiceResponseTimeout,
        };
        NetworkTime { code, time: option(v[2], line.part(v[3], v[4])) }
    }
}

from_line! { NetworkTime<'a> "1, 4 where the time is too long, or 3" }
