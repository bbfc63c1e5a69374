//! What the published readers say of lines whose texts are handed out, and of a download's success, as the program `vectors` prints it.

use crate::at_command::{cmgr::SmsMessage, cntp::NetworkTime, cops::OperatorInfo, gsn::Imei, httptofs, AtParseLine};
use std::panic::catch_unwind;

pub const KINDS: [&str; 5] = ["imei", "name", "time", "sender", "success"];

/// Whether the fixed list's line is one for the reader of this kind.
pub fn concerns(kind: &str, line: &[u8]) -> bool {
    match kind {
        "imei" => line.len() >= 13 && line[..13].iter().all(u8::is_ascii_digit),
        "name" => line.starts_with(b"+COPS"),
        "time" => line.starts_with(b"+CNTP"),
        "sender" => line.starts_with(b"+CMGR"),
        _ => line.starts_with(b"+HTTPTOFS"),
    }
}

/// A text in hexadecimal; absent ones are empty.
pub fn text(bytes: &[u8]) -> String {
    if bytes.is_empty() {
        return "empty".to_string();
    }
    bytes.iter().map(|byte| format!("{:02x}", byte)).collect()
}

fn success(line: &str) -> Option<String> {
    let mut code = httptofs::DownloadInfo::from_line(line).ok()?.status_code;
    Some(match code.success() {
        Ok(()) => "ok".to_string(),
        Err(httptofs::StatusCode::OtherErrors) => "err 0".to_string(),
        // its number is the text that it was known by
        Err(_) => format!("err {}", line.strip_prefix("+HTTPTOFS: ")?.split(',').next()?),
    })
}

fn said(kind: &str, line: &str) -> Option<String> {
    match kind {
        "imei" => Imei::from_line(line).ok().map(|read| text(read.imei.as_bytes())),
        "name" => OperatorInfo::from_line(line).ok().map(|read| text(read.operator_name.as_bytes())),
        "time" => NetworkTime::from_line(line).ok().map(|read| text(read.time.as_deref().unwrap_or("").as_bytes())),
        "sender" => SmsMessage::from_line(line).ok().map(|read| text(read.sender.as_bytes())),
        _ => success(line),
    }
}

/// The Rust's answer.
pub fn theirs(kind: &str, line: &[u8]) -> String {
    match std::str::from_utf8(line) {
        Err(_) => "not utf8".to_string(),
        Ok(line) => catch_unwind(|| said(kind, line)).map_or("stopped".to_string(), |said| said.unwrap_or("refused 3".to_string())),
    }
}

/// Ours to a line outside the domain, of what `lines` owes for it.
pub fn ours(owed: &str) -> String {
    match owed.strip_prefix("Imei version \"") {
        Some(digits) => text(digits.trim_end_matches('"').as_bytes()),
        None => owed.to_string(),
    }
}
