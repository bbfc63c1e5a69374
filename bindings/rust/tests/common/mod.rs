//! What the replays of stored lists share.

use sim7000::*;

/// The lines of a stored file, each without its LF, which the last may lack.
pub fn list(crate_and_file: &str) -> Vec<Vec<u8>> {
    let path = format!("{}/../../crates/{}", env!("CARGO_MANIFEST_DIR"), crate_and_file);
    let bytes = std::fs::read(&path).unwrap_or_else(|why| panic!("{}: {}", path, why));
    assert!(!bytes.is_empty(), "{}", path);
    bytes.strip_suffix(b"\n").unwrap_or(&bytes).split(|&byte| byte == b'\n').map(|line| line.to_vec()).collect()
}

fn number<T: std::str::FromStr>(text: &[u8]) -> Option<T> {
    std::str::from_utf8(text).ok()?.parse().ok()
}

/// The request that a line names, its fields parted by one TAB.
pub fn request(line: &[u8]) -> Option<Request<'_>> {
    let fields: Vec<&[u8]> = line.split(|&byte| byte == b'\t').collect();
    Some(match *fields {
        [b"GetSignalQuality"] => Request::GetSignalQuality,
        [b"ShowIccid"] => Request::ShowIccid,
        [b"GetImei"] => Request::GetImei,
        [b"GetOperatorInfo"] => Request::GetOperatorInfo,
        [b"SetManualOperator", plmn] => Request::SetManualOperator { plmn },
        [b"SetAutomaticOperator"] => Request::SetAutomaticOperator,
        [b"GetSystemInfo"] => Request::GetSystemInfo,
        [b"SynchronizeNetworkTime", ntp_server, timezone, cid] => {
            Request::SynchronizeNetworkTime { ntp_server, timezone: number(timezone)?, cid: number(cid)? }
        }
        [b"Execute"] => Request::Execute,
        [b"DownloadToFileSystem", url, file_path] => Request::DownloadToFileSystem { url, file_path },
        [b"GetSmsMessageFormat"] => Request::GetSmsMessageFormat,
        [b"SetSmsMessageFormat", b"Pdu"] => Request::SetSmsMessageFormat(SmsMessageFormat::Pdu),
        [b"SetSmsMessageFormat", b"Text"] => Request::SetSmsMessageFormat(SmsMessageFormat::Text),
        [b"ReadSms", index] => Request::ReadSms { index: number(index)? },
        _ => return None,
    })
}
