use crate::at_command::cmgf::SmsMessageFormat;
use crate::at_command::cmgr::ReadSms;
use crate::at_command::*;
use crate::raw;
use crate::refusal::{accepted, Refusal};

/// Any request, as a [`Desk`](crate::Desk) opens it. Each published struct turns into one, and a text that may not be UTF-8 can be given as bytes. A text is
/// bytes 32 to 126; a plmn is five or six digits.
#[derive(Debug, Clone, Copy, PartialEq, Eq)]
#[non_exhaustive]
pub enum Request<'a> {
    /// [`GetSignalQuality`].
    GetSignalQuality,
    /// [`ShowIccid`].
    ShowIccid,
    /// [`GetImei`].
    GetImei,
    /// [`GetOperatorInfo`].
    GetOperatorInfo,
    /// [`SetManualOperator`].
    SetManualOperator {
        /// The operator's number: five or six digits.
        plmn: &'a [u8],
    },
    /// [`SetAutomaticOperator`].
    SetAutomaticOperator,
    /// [`GetSystemInfo`].
    GetSystemInfo,
    /// [`SynchronizeNetworkTime`].
    SynchronizeNetworkTime {
        /// The server's name or address, of at most 64 bytes.
        ntp_server: &'a [u8],
        /// The time zone, in quarters of an hour.
        timezone: u16,
        /// The bearer profile.
        cid: u8,
    },
    /// [`Execute`].
    Execute,
    /// [`DownloadToFileSystem`].
    DownloadToFileSystem {
        /// What is fetched, of at most 64 bytes.
        url: &'a [u8],
        /// Where the modem keeps it, of at most 32 bytes.
        file_path: &'a [u8],
    },
    /// [`GetSmsMessageFormat`].
    GetSmsMessageFormat,
    /// [`SetSmsMessageFormat`].
    SetSmsMessageFormat(SmsMessageFormat),
    /// [`ReadSms`].
    ReadSms {
        /// The message's place in the modem's storage.
        index: u8,
    },
}

macro_rules! plain {
    ($($name:ident)*) => {$(
        impl From<$name> for Request<'_> {
            fn from(_: $name) -> Self {
                Request::$name
            }
        }
    )*};
}

plain! { GetSignalQuality ShowIccid GetImei GetOperatorInfo SetAutomaticOperator GetSystemInfo Execute GetSmsMessageFormat }

impl<'a> From<SetManualOperator<'a>> for Request<'a> {
    fn from(request: SetManualOperator<'a>) -> Self {
        Request::SetManualOperator { plmn: request.plmn.as_bytes() }
    }
}

impl<'a> From<SynchronizeNetworkTime<'a>> for Request<'a> {
    fn from(request: SynchronizeNetworkTime<'a>) -> Self {
        Request::SynchronizeNetworkTime { ntp_server: request.ntp_server.as_bytes(), timezone: request.timezone, cid: request.cid }
    }
}

impl<'a> From<DownloadToFileSystem<'a>> for Request<'a> {
    fn from(request: DownloadToFileSystem<'a>) -> Self {
        Request::DownloadToFileSystem { url: request.url.as_bytes(), file_path: request.file_path.as_bytes() }
    }
}

impl From<SetSmsMessageFormat> for Request<'_> {
    fn from(request: SetSmsMessageFormat) -> Self {
        Request::SetSmsMessageFormat(request.0)
    }
}

impl From<ReadSms> for Request<'_> {
    fn from(request: ReadSms) -> Self {
        Request::ReadSms { index: request.index }
    }
}

impl<'a> From<&Request<'a>> for Request<'a> {
    fn from(request: &Request<'a>) -> Self {
        *request
    }
}

/// A request as the exports take it.
pub(crate) struct Parameters<'a> {
    pub request: u8,
    pub number: u16,
    pub code: u8,
    pub first: &'a [u8],
    pub second: &'a [u8],
}

impl<'a> Request<'a> {
    pub(crate) fn parameters(&self) -> Parameters<'a> {
        let plain = |request| Parameters { request, number: 0, code: 0, first: &[], second: &[] };
        match *self {
            Request::GetSignalQuality => plain(0),
            Request::ShowIccid => plain(1),
            Request::GetImei => plain(2),
            Request::GetOperatorInfo => plain(3),
            Request::SetManualOperator { plmn } => Parameters { first: plmn, ..plain(4) },
            Request::SetAutomaticOperator => plain(5),
            Request::GetSystemInfo => plain(6),
            Request::SynchronizeNetworkTime { ntp_server, timezone, cid } => {
                Parameters { number: timezone, code: cid, first: ntp_server, ..plain(7) }
            }
            Request::Execute => plain(8),
            Request::DownloadToFileSystem { url, file_path } => Parameters { first: url, second: file_path, ..plain(9) },
            Request::GetSmsMessageFormat => plain(10),
            Request::SetSmsMessageFormat(format) => Parameters { code: format as u8, ..plain(11) },
            Request::ReadSms { index } => Parameters { code: index, ..plain(12) },
        }
    }

    /// Writes the command to the front of `out`, and gives the part of it that was written. Refused are, in this order, a text that is too long (5), a plmn
    /// that is not five or six digits (12), a byte outside 32 to 126 (6), and a buffer shorter than the command (7), which one of
    /// [`LONGEST_COMMAND`](crate::LONGEST_COMMAND) never is; `out` then stays as it was.
    pub fn encode<'o>(&self, out: &'o mut [u8]) -> Result<&'o [u8], Refusal> {
        let p = self.parameters();
        let mut size = 0;
        // Each pointer goes with its slice's length, and `out` and `size` are lent to this call alone.
        let answer = unsafe {
            raw::sim7000_write_command(
                p.request,
                p.number,
                p.code,
                p.first.as_ptr(),
                p.first.len(),
                p.second.as_ptr(),
                p.second.len(),
                out.as_mut_ptr(),
                out.len(),
                &mut size,
            )
        };
        accepted(answer)?;
        Ok(front(out, size))
    }
}

/// As many bytes of the buffer's front as the archive wrote, which are never more than it has.
pub(crate) fn front(buffer: &[u8], size: u64) -> &[u8] {
    buffer.get(..size as usize).unwrap_or(&[])
}
