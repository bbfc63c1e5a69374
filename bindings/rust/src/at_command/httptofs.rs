//! AT+HTTPTOFS: a file fetched into the modem's file system.

use crate::at_command::{AtRequest, GenericOk};
use crate::refusal::Refusal;
use crate::request::Request;
use crate::values::{reader, Answer, Lent, Values};

/// How a download went: a status of HTTP, or one of the modem's own from 600 on.
#[repr(u8)]
#[derive(Debug, Clone, Copy, PartialEq, Eq)]
pub enum StatusCode {
    /// 100.
    Continue,
    /// 200.
    Ok,
    /// 206.
    PartialContent,
    /// 400.
    BadRequest,
    /// 404.
    NotFound,
    /// 408.
    RequestTimeout,
    /// 500.
    InternalServerError,
    /// 600: what came is no HTTP.
    NotHttpPdu,
    /// 601.
    NetworkError,
    /// 602: the modem has no room for it.
    NoMemory,
    /// 603.
    DnsError,
    /// 604.
    StackBusy,
    /// 620.
    SslContinue,
    /// Any other number or text.
    OtherErrors,
}

impl StatusCode {
    /// Nothing where the status is [`Ok`](StatusCode::Ok), else the status.
    pub fn success(self) -> Result<(), Self> {
        match self {
            StatusCode::Ok => Ok(()),
            other => Err(other),
        }
    }
}

/// `AT+HTTPTOFS="<url>","<file_path>"`: fetches a file.
#[derive(Debug, Clone, Copy, PartialEq, Eq)]
pub struct DownloadToFileSystem<'a> {
    /// What is fetched: at most 64 bytes, each 32 to 126.
    pub url: &'a str,
    /// Where the modem keeps it: at most 32 bytes, each 32 to 126.
    pub file_path: &'a str,
}

impl<'l> AtRequest<'l> for DownloadToFileSystem<'_> {
    type Response = (GenericOk, DownloadInfo);
    fn encode<'o>(&self, out: &'o mut [u8]) -> Result<&'o [u8], Refusal> {
        Request::from(*self).encode(out)
    }
}

/// What became of a download.
#[derive(Debug, Clone, Copy, PartialEq, Eq)]
pub struct DownloadInfo {
    /// How it went.
    pub status_code: StatusCode,
    /// The file's bytes; 0 where the line does not say.
    pub data_length: u64,
}

impl<'a> Answer<'a> for DownloadInfo {
    const READER: u64 = reader::DOWNLOAD_INFO;
    fn of(v: &Values, _: impl Lent<'a>) -> Self {
        let status_code = match v[1] {
            100 => StatusCode::Continue,
            200 => StatusCode::Ok,
            206 => StatusCode::PartialContent,
            400 => StatusCode::BadRequest,
            404 => StatusCode::NotFound,
            408 => StatusCode::RequestTimeout,
            500 => StatusCode::InternalServerError,
            600 => StatusCode::NotHttpPdu,
            601 => StatusCode::NetworkError,
            602 => StatusCode::NoMemory,
            603 => StatusCode::DnsError,
            604 => StatusCode::StackBusy,
            620 => StatusCode::SslContinue,
            _ => StatusCode::OtherErrors,
        };
        DownloadInfo { status_code, data_length: v[2] }
    }
}

from_line! { DownloadInfo "1 or 3" }
