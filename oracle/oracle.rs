//! oracle lines | requests: what the published Rust says of each line, or writes for each request, of standard input. See README.md.

#[allow(warnings)]
#[path = "../target/oracle/published/at_command/mod.rs"]
mod at_command;
#[path = "../target/oracle/published/util.rs"]
mod util;

use at_command::unsolicited::{GnssReport, Urc};
use at_command::*;
use heapless::String as Text;
use std::io::{BufRead, Write};
use std::str::from_utf8;

fn float(value: f32) -> String {
    format!("{:08x}", value.to_bits())
}

fn or_none<T>(value: Option<T>, show: impl Fn(T) -> String) -> String {
    value.map_or("none".to_string(), show)
}

fn quoted(text: &str) -> String {
    format!("\"{}\"", text)
}

fn response(code: ResponseCode) -> String {
    match code {
        ResponseCode::Ok(ok) => format!("{:?}", ok),
        ResponseCode::Error(SimError::Generic) => "SimError Generic".to_string(),
        ResponseCode::Error(SimError::CmeErr { code }) => format!("SimError CmeErr {}", code),
        ResponseCode::Error(SimError::CmsErr { code }) => format!("SimError CmsErr {}", code),
        ResponseCode::WritePrompt(prompt) => format!("{:?}", prompt),
        ResponseCode::CloseOk(close) => format!("CloseOk {}", close.connection),
        ResponseCode::Iccid(id) => format!("Iccid {} {} {}", id.country, id.issuer, id.account),
        ResponseCode::SignalQuality(signal) => format!(
            "SignalQuality {} {}",
            or_none(signal.signal_strength, float),
            or_none(signal.signal_quality, float)
        ),
        ResponseCode::SystemInfo(info) => {
            format!("SystemInfo {:?} {:?}", info.system_mode, info.operation_mode)
        }
        ResponseCode::OperatorInfo(info) => format!(
            "OperatorInfo {:?} {:?} {}",
            info.mode,
            info.format,
            quoted(&info.operator_name)
        ),
        ResponseCode::NetworkTime(time) => {
            format!("NetworkTime {:?} {}", time.code, or_none(time.time.as_deref(), quoted))
        }
        ResponseCode::DownloadInfo(info) => {
            format!("DownloadInfo {:?} {}", info.status_code, data_length(&info))
        }
        ResponseCode::Imei(imei) => format!("Imei {}", quoted(&imei.imei)),
        ResponseCode::SmsMessageFormat(format) => format!("SmsMessageFormat {:?}", format),
        ResponseCode::SmsMessage(sms) => {
            assert!(sms.message.is_empty());
            format!("SmsMessage {}", quoted(&sms.sender))
        }
    }
}

/// The field is private, so it is read out of the Debug text.
fn data_length(info: &httptofs::DownloadInfo) -> u64 {
    let shown = format!("{:?}", info);
    let digits = shown.split("data_length: ").nth(1).and_then(|rest| rest.strip_suffix(" }"));
    digits.expect("a Debug text with data_length last").parse().expect("a number")
}

fn unsolicited(urc: Urc) -> String {
    let fix = match urc {
        Urc::GnssReport(GnssReport::NotEnabled) => return "GnssReport NotEnabled".to_string(),
        Urc::GnssReport(GnssReport::NoFix { sat_gps_view }) => {
            return format!("GnssReport NoFix {}", or_none(sat_gps_view, |n| n.to_string()))
        }
        Urc::GnssReport(GnssReport::Fix(fix)) => fix,
        Urc::NetworkRegistration(registration) => {
            return format!(
                "NetworkRegistration {:?} {} {}",
                registration.status,
                or_none(registration.lac, |n| n.to_string()),
                or_none(registration.ci, |n| n.to_string())
            )
        }
    };
    let t = fix.date_time;
    let mut out = format!("GnssReport Fix {} {} {} {} {} {}", t.year, t.month, t.day, t.hour, t.minute, t.second);
    for value in [
        fix.latitude,
        fix.longitude,
        fix.altitude,
        fix.hdop,
        fix.pdop,
        fix.vdop,
        fix.speed_over_ground,
        fix.course_over_ground,
    ] {
        out = out + " " + &float(value);
    }
    for count in [fix.sat_gps_in_view, fix.sat_gnss_used, fix.sat_glonass_used, fix.signal_noise_ratio] {
        out = out + " " + &count.to_string();
    }
    out
}

fn read_line(line: &[u8]) -> String {
    let line = match from_utf8(line) {
        Ok(line) => line,
        Err(_) => return "not utf8".to_string(),
    };
    if let Ok(code) = ResponseCode::from_line(line) {
        return response(code);
    }
    match Urc::from_line(line) {
        Ok(urc) => unsolicited(urc),
        Err(_) => "refused 3".to_string(),
    }
}

/// None: the line is no request.
fn write_request(line: &[u8]) -> Option<String> {
    let fields: Vec<&[u8]> = line.split(|&byte| byte == b'\t').collect();
    let command = match (from_utf8(fields[0]).ok()?, &fields[1..]) {
        ("GetSignalQuality", []) => GetSignalQuality.encode(),
        ("ShowIccid", []) => ShowIccid.encode(),
        ("GetImei", []) => GetImei.encode(),
        ("GetOperatorInfo", []) => GetOperatorInfo.encode(),
        ("SetAutomaticOperator", []) => SetAutomaticOperator.encode(),
        ("SetManualOperator", [plmn]) => match from_utf8(plmn) {
            Ok(plmn) => SetManualOperator { plmn: plmn.into() }.encode(),
            Err(_) => return Some("not utf8".to_string()),
        },
        ("GetSystemInfo", []) => GetSystemInfo.encode(),
        ("SynchronizeNetworkTime", [server, timezone, cid]) => {
            let (timezone, cid) = (number(timezone)?, number(cid)?);
            match from_utf8(server) {
                Ok(server) => SynchronizeNetworkTime { ntp_server: server.into(), timezone, cid }.encode(),
                Err(_) => return Some("not utf8".to_string()),
            }
        }
        ("Execute", []) => Execute.encode(),
        ("DownloadToFileSystem", [url, path]) => match (from_utf8(url), from_utf8(path)) {
            (Ok(url), Ok(path)) => DownloadToFileSystem { url: url.into(), file_path: path.into() }.encode(),
            _ => return Some("not utf8".to_string()),
        },
        ("GetSmsMessageFormat", []) => GetSmsMessageFormat.encode(),
        ("SetSmsMessageFormat", [b"Pdu"]) => SetSmsMessageFormat(SmsMessageFormat::Pdu).encode(),
        ("SetSmsMessageFormat", [b"Text"]) => SetSmsMessageFormat(SmsMessageFormat::Text).encode(),
        ("ReadSms", [index]) => cmgr::ReadSms { index: number(index)? }.encode(),
        _ => return None,
    };
    let command: Text<256> = command;
    Some(command.as_str().to_string())
}

fn number<T: std::str::FromStr>(text: &[u8]) -> Option<T> {
    from_utf8(text).ok()?.parse().ok()
}

fn main() {
    let lines = match std::env::args().nth(1).as_deref() {
        Some("lines") => true,
        Some("requests") => false,
        _ => {
            eprintln!("usage: oracle lines|requests");
            std::process::exit(2);
        }
    };
    std::panic::set_hook(Box::new(|_| {}));
    // Standard output fails when its reader has gone; there is nobody left to tell.
    if answer_all(lines).is_err() {
        std::process::exit(1);
    }
}

fn answer_all(lines: bool) -> std::io::Result<()> {
    let mut input = std::io::BufReader::with_capacity(1 << 16, std::io::stdin());
    let mut output = std::io::BufWriter::with_capacity(1 << 16, std::io::stdout());
    let mut line = Vec::new();
    loop {
        line.clear();
        if input.read_until(b'\n', &mut line)? == 0 {
            return output.flush();
        }
        if line.last() == Some(&b'\n') {
            line.pop();
        }
        if lines && line.last() == Some(&b'\r') {
            line.pop();
        }
        let answer = std::panic::catch_unwind(|| {
            if lines {
                read_line(&line)
            } else {
                write_request(&line).unwrap_or("unknown".to_string())
            }
        });
        output.write_all(answer.as_deref().unwrap_or("stopped").as_bytes())?;
        output.write_all(b"\n")?;
    }
}
