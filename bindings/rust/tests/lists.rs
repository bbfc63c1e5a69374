//! The lists that the programs `lines` and `commands` replay in the gate, through the wrappers: every line and request, and the same answers.

mod common;

use common::{list, request};
use sim7000::*;

fn or_none<T>(value: Option<T>, show: impl Fn(T) -> Vec<u8>) -> Vec<u8> {
    value.map_or(b"none".to_vec(), show)
}

fn float(value: f32) -> Vec<u8> {
    format!("{:08x}", value.to_bits()).into_bytes()
}

fn count<T: ToString>(value: T) -> Vec<u8> {
    value.to_string().into_bytes()
}

fn quoted(text: &str) -> Vec<u8> {
    format!("\"{}\"", text).into_bytes()
}

fn words(words: &[Vec<u8>]) -> Vec<u8> {
    words.join(&b' ')
}

fn named(name: &str, rest: Vec<Vec<u8>>) -> Vec<u8> {
    let mut all = vec![name.as_bytes().to_vec()];
    all.extend(rest);
    words(&all)
}

fn debug<T: std::fmt::Debug>(value: T) -> Vec<u8> {
    format!("{:?}", value).into_bytes()
}

fn response(code: ResponseCode) -> Vec<u8> {
    match code {
        ResponseCode::Ok(_) => named("GenericOk", vec![]),
        ResponseCode::Error(SimError::Generic) => named("SimError Generic", vec![]),
        ResponseCode::Error(SimError::CmeErr { code }) => named("SimError CmeErr", vec![count(code)]),
        ResponseCode::Error(SimError::CmsErr { code }) => named("SimError CmsErr", vec![count(code)]),
        ResponseCode::WritePrompt(_) => named("WritePrompt", vec![]),
        ResponseCode::CloseOk(close) => named("CloseOk", vec![count(close.connection)]),
        ResponseCode::Iccid(id) => named("Iccid", vec![count(id.country), count(id.issuer), count(id.account)]),
        ResponseCode::SignalQuality(s) => named("SignalQuality", vec![or_none(s.signal_strength, float), or_none(s.signal_quality, float)]),
        ResponseCode::SystemInfo(info) => named("SystemInfo", vec![debug(info.system_mode), debug(info.operation_mode)]),
        ResponseCode::OperatorInfo(info) => named("OperatorInfo", vec![debug(info.mode), debug(info.format), quoted(info.operator_name)]),
        ResponseCode::NetworkTime(time) => named("NetworkTime", vec![debug(time.code), or_none(time.time, quoted)]),
        ResponseCode::DownloadInfo(info) => named("DownloadInfo", vec![debug(info.status_code), count(info.data_length)]),
        ResponseCode::Imei(Imei { imei, is_version_number }) => named(if is_version_number { "Imei version" } else { "Imei" }, vec![quoted(imei)]),
        ResponseCode::SmsMessageFormat(format) => named("SmsMessageFormat", vec![debug(format)]),
        ResponseCode::SmsMessage(sms) => {
            assert_eq!(sms.message, "");
            named("SmsMessage", vec![quoted(sms.sender)])
        }
        other => panic!("{:?}", other),
    }
}

fn unsolicited(urc: Urc) -> Vec<u8> {
    let fix = match urc {
        Urc::GnssReport(GnssReport::NotEnabled) => return named("GnssReport NotEnabled", vec![]),
        Urc::GnssReport(GnssReport::NoFix { sat_gps_view }) => return named("GnssReport NoFix", vec![or_none(sat_gps_view, count)]),
        Urc::NetworkRegistration(r) => return named("NetworkRegistration", vec![debug(r.status), or_none(r.lac, count), or_none(r.ci, count)]),
        Urc::GnssReport(GnssReport::Fix(fix)) => fix,
        other => panic!("{:?}", other),
    };
    let t = fix.date_time;
    let mut all = vec![count(t.year), count(t.month), count(t.day), count(t.hour), count(t.minute), count(t.second)];
    all.extend([fix.latitude, fix.longitude, fix.altitude, fix.hdop, fix.pdop, fix.vdop, fix.speed_over_ground, fix.course_over_ground].map(float));
    all.extend([fix.sat_gps_in_view, fix.sat_gnss_used, fix.sat_glonass_used, fix.signal_noise_ratio].map(count));
    named("GnssReport Fix", all)
}

fn refused(refusal: Refusal) -> Vec<u8> {
    named("refused", vec![count(refusal.0)])
}

/// As its own function and the trait's read the line.
fn both<'a, T: AtParseLine<'a> + std::fmt::Debug>(line: &'a str, own: Result<T, Refusal>, show: impl Fn(T) -> Vec<u8>) -> Vec<u8> {
    assert_eq!(format!("{:?}", T::from_line(line)), format!("{:?}", own));
    own.map_or_else(refused, show)
}

/// What each reader alone says of the line, under the name that the lists have for it.
fn each_reader(line: &str) -> [(&'static str, Vec<u8>); 15] {
    [
        ("GenericOk", both(line, GenericOk::from_line(line), |ok| response(ResponseCode::Ok(ok)))),
        ("SimError", both(line, SimError::from_line(line), |error| response(ResponseCode::Error(error)))),
        ("WritePrompt", both(line, WritePrompt::from_line(line), |prompt| response(ResponseCode::WritePrompt(prompt)))),
        ("CloseOk", both(line, CloseOk::from_line(line), |close| response(ResponseCode::CloseOk(close)))),
        ("Iccid", both(line, Iccid::from_line(line), |id| response(ResponseCode::Iccid(id)))),
        ("SignalQuality", both(line, SignalQuality::from_line(line), |signal| response(ResponseCode::SignalQuality(signal)))),
        ("SystemInfo", both(line, SystemInfo::from_line(line), |info| response(ResponseCode::SystemInfo(info)))),
        ("OperatorInfo", both(line, OperatorInfo::from_line(line), |info| response(ResponseCode::OperatorInfo(info)))),
        ("NetworkTime", both(line, NetworkTime::from_line(line), |time| response(ResponseCode::NetworkTime(time)))),
        ("DownloadInfo", both(line, DownloadInfo::from_line(line), |info| response(ResponseCode::DownloadInfo(info)))),
        ("Imei", both(line, Imei::from_line(line), |imei| response(ResponseCode::Imei(imei)))),
        ("SmsMessageFormat", both(line, SmsMessageFormat::from_line(line), |format| response(ResponseCode::SmsMessageFormat(format)))),
        ("SmsMessage", both(line, SmsMessage::from_line(line), |sms| response(ResponseCode::SmsMessage(sms)))),
        ("GnssReport", both(line, GnssReport::from_line(line), |report| unsolicited(Urc::GnssReport(report)))),
        ("NetworkRegistration", both(line, NetworkRegistration::from_line(line), |there| unsolicited(Urc::NetworkRegistration(there)))),
    ]
}

/// The two trials and each reader alone. Who does not accept the line refuses it with 3, but for 1, which is everyone's; 4, of the responses and of the one
/// whose text it is; and 13, of the unsolicited codes and of the satellite report.
fn alone(line: &str, answer: &[u8]) {
    let name = answer.split(|&byte| byte == b' ').next().unwrap();
    let of_urc = [&b"GnssReport"[..], b"NetworkRegistration"].contains(&name);
    let (response_says, urc_says) = (both(line, ResponseCode::from_line(line), response), both(line, Urc::from_line(line), unsolicited));
    let nobody = b"refused 3".to_vec();
    let keeps = |keeps: bool| if keeps { answer.to_vec() } else { nobody.clone() };
    let (from_responses, from_urcs) = match answer {
        b"refused 1" | b"refused 3" => (true, true),
        b"refused 4" => (true, false),
        b"refused 13" => (false, true),
        _ => (!of_urc, of_urc),
    };
    assert_eq!((response_says, urc_says), (keeps(from_responses), keeps(from_urcs)), "{:?}", line);
    for (reader, says) in each_reader(line) {
        let own = match answer {
            b"refused 1" => true,
            b"refused 4" => reader == if line.starts_with("+CNTP") { "NetworkTime" } else { "SmsMessage" },
            b"refused 13" => reader == "GnssReport",
            _ => name == reader.as_bytes(),
        };
        assert_eq!(says, keeps(own), "{} of {:?}", reader, line);
    }
}

#[test]
fn lines() {
    let (asked, answered) = (list("lines/stdin"), list("lines/stdout"));
    assert_eq!(asked.len(), answered.len());
    for (line, answer) in asked.iter().zip(&answered) {
        let line = line.strip_suffix(b"\r").unwrap_or(line);
        let ours = match Line::from_line(line) {
            Ok(Line::Response(code)) => response(code),
            Ok(Line::Unsolicited(urc)) => unsolicited(urc),
            Ok(other) => panic!("{:?}", other),
            Err(refusal) => refused(refusal),
        };
        assert_eq!(ours, *answer, "{}", line.escape_ascii());
        assert_eq!(sort_line(line).map_err(refused).err(), Line::from_line(line).map_err(refused).err());
        match std::str::from_utf8(line) {
            Ok(line) => alone(line, answer),
            Err(_) => assert!([&b"refused 1"[..], b"refused 2"].contains(&&answer[..])),
        }
    }
}

/// The same by the published struct, where the texts are UTF-8.
fn struct_says(fields: &[&[u8]], out: &mut [u8]) -> Option<Result<usize, Refusal>> {
    let texts: Vec<&str> = fields.iter().map(|field| std::str::from_utf8(field)).collect::<Result<_, _>>().ok()?;
    let written = match *texts {
        ["GetSignalQuality"] => GetSignalQuality.encode(out),
        ["ShowIccid"] => ShowIccid.encode(out),
        ["GetImei"] => GetImei.encode(out),
        ["GetOperatorInfo"] => GetOperatorInfo.encode(out),
        ["SetManualOperator", plmn] => SetManualOperator { plmn }.encode(out),
        ["SetAutomaticOperator"] => SetAutomaticOperator.encode(out),
        ["GetSystemInfo"] => GetSystemInfo.encode(out),
        ["SynchronizeNetworkTime", ntp_server, timezone, cid] => {
            SynchronizeNetworkTime { ntp_server, timezone: timezone.parse().ok()?, cid: cid.parse().ok()? }.encode(out)
        }
        ["Execute"] => Execute.encode(out),
        ["DownloadToFileSystem", url, file_path] => DownloadToFileSystem { url, file_path }.encode(out),
        ["GetSmsMessageFormat"] => GetSmsMessageFormat.encode(out),
        ["SetSmsMessageFormat", "Pdu"] => SetSmsMessageFormat(SmsMessageFormat::Pdu).encode(out),
        ["SetSmsMessageFormat", "Text"] => SetSmsMessageFormat(SmsMessageFormat::Text).encode(out),
        ["ReadSms", index] => ReadSms { index: index.parse().ok()? }.encode(out),
        _ => return None,
    };
    Some(written.map(|command| command.len()))
}

/// The command, opened in echo mode, is known again with its CR and without it, and only once; no reader takes it.
fn comes_back(request: &Request, command: &[u8]) {
    let bare = command.strip_suffix(b"\r").unwrap();
    for (echo, again) in [(command, bare), (bare, command)] {
        let (mut desk, mut out, mut text) = (Desk::new(), [0; 256], [0; 256]);
        assert_eq!(desk.open_echo(request, &mut out), Ok(command));
        out.fill(0);
        for (line, event, ordinal) in [(&b"OK"[..], Event::Stray(None), 1), (echo, Event::Echo, 2), (again, Event::Stray(Some(Refusal(3))), 3)] {
            let heard = desk.feed(&[line, b"\r\n"].concat(), &mut text).unwrap().heard.unwrap();
            assert_eq!((heard.event, heard.ordinal, heard.line), (event, ordinal, line));
        }
        assert!(desk.is_open());
        assert_eq!(sort_line(echo), Err(Refusal(3)));
    }
}

#[test]
fn commands() {
    let (asked, answered) = (list("commands/stdin"), list("commands/stdout"));
    assert_eq!(asked.len(), answered.len());
    let mut by_struct = 0;
    for (line, answer) in asked.iter().zip(&answered) {
        let fields: Vec<&[u8]> = line.split(|&byte| byte == b'\t').collect();
        let (mut out, mut opened) = ([0; 256], [0; 256]);
        let ours = match request(line) {
            None => b"unknown".to_vec(),
            Some(request) => {
                let written = request.encode(&mut out);
                assert_eq!(Desk::new().open(request, &mut opened), written);
                assert_eq!(Desk::new().open_echo(request, &mut opened), written);
                if let Ok(command) = written {
                    comes_back(&request, command);
                }
                if let Some(size) = struct_says(&fields, &mut opened) {
                    assert_eq!(size.map(|size| &opened[..size]), written);
                    by_struct += 1;
                }
                written.map_or_else(refused, |command| command.to_vec())
            }
        };
        assert_eq!(ours, *answer, "{}", line.escape_ascii());
    }
    // all but the few with a text that is not UTF-8, and those that are no request
    assert!(by_struct > 1000, "{}", by_struct);
}
