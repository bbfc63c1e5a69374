//! The published names, where they stand and what they are; refusals by name; the version.

use sim7000::at_command::cmgr::{ReadSms, SmsMessage};
use sim7000::at_command::cntp::{NetworkTime, SyncNtpStatusCode};
use sim7000::at_command::cpsi::OperationMode;
use sim7000::at_command::httptofs::{DownloadInfo, StatusCode};
use sim7000::at_command::unsolicited::{DateTime, GnssFix, GnssReport, NetworkRegistration, RegistrationStatus, Urc};
use sim7000::at_command::*;
use sim7000::{sort_line, Desk, Event, Line, Refusal, Request, LONGEST_COMMAND, LONGEST_LINE};

/// The request awaits these answers, and writes this command; the enum and the desk in both modes write the same.
fn asks<'l, R, A>(request: R, _: fn() -> A, command: &str)
where
    R: AtRequest<'l, Response = A> + Into<Request<'static>> + Copy,
{
    let (mut out, mut again) = ([7; LONGEST_COMMAND], [7; LONGEST_COMMAND]);
    let command = [command.as_bytes(), b"\r"].concat();
    assert_eq!(request.encode(&mut out), Ok(&command[..]));
    assert!(out[command.len()..].iter().all(|&byte| byte == 7));
    assert_eq!(request.into().encode(&mut again), Ok(&command[..]));
    assert_eq!(Desk::new().open(request, &mut again), Ok(&command[..]));
    assert_eq!(Desk::new().open_echo(request, &mut again), Ok(&command[..]));
    assert_eq!(request.encode(&mut out[..command.len() - 1]), Err(Refusal::OUT_TOO_SHORT));
}

/// Never called: only its type is looked at.
fn of<A>() -> A {
    unreachable!()
}

#[test]
fn requests_and_their_responses() {
    asks(GetSignalQuality, of::<(SignalQuality, GenericOk)>, "AT+CSQ");
    asks(ShowIccid, of::<(Iccid, GenericOk)>, "AT+CCID");
    asks(GetImei, of::<(Imei, GenericOk)>, "AT+GSN");
    asks(GetOperatorInfo, of::<(OperatorInfo, GenericOk)>, "AT+COPS?");
    asks(SetManualOperator { plmn: "643041" }, of::<GenericOk>, "AT+COPS=1,2,\"643041\"");
    asks(SetAutomaticOperator, of::<GenericOk>, "AT+COPS=0");
    asks(GetSystemInfo, of::<(SystemInfo, GenericOk)>, "AT+CPSI?");
    let ntp_server = "a\"\\";
    asks(SynchronizeNetworkTime { ntp_server, timezone: 65535, cid: 255 }, of::<GenericOk>, "AT+CNTP=\"a\\\"\\\\\",65535,255");
    asks(Execute, of::<(GenericOk, NetworkTime)>, "AT+CNTP");
    asks(DownloadToFileSystem { url: "u", file_path: "f" }, of::<(GenericOk, DownloadInfo)>, "AT+HTTPTOFS=\"u\",\"f\"");
    asks(GetSmsMessageFormat, of::<(SmsMessageFormat, GenericOk)>, "AT+CMGF?");
    asks(SetSmsMessageFormat(SmsMessageFormat::Pdu), of::<GenericOk>, "AT+CMGF=0");
    asks(SetSmsMessageFormat(SmsMessageFormat::Text), of::<GenericOk>, "AT+CMGF=1");
    asks(ReadSms { index: 9 }, of::<(SmsMessage, GenericOk)>, "AT+CMGR=9");
}

#[test]
fn requests_refused() {
    let mut out = [7; LONGEST_COMMAND];
    let long = "x".repeat(65);
    assert_eq!(SetManualOperator { plmn: "64304\"" }.encode(&mut out), Err(Refusal::NOT_OPERATOR_NUMBER));
    assert_eq!(SetManualOperator { plmn: "6430411" }.encode(&mut out), Err(Refusal::TEXT_TOO_LONG));
    assert_eq!(SynchronizeNetworkTime { ntp_server: &long, timezone: 0, cid: 0 }.encode(&mut out), Err(Refusal::TEXT_TOO_LONG));
    assert_eq!(SynchronizeNetworkTime { ntp_server: "\u{e9}", timezone: 0, cid: 0 }.encode(&mut out), Err(Refusal::TEXT_NOT_PLAIN));
    assert_eq!(DownloadToFileSystem { url: &long, file_path: "" }.encode(&mut out), Err(Refusal::TEXT_TOO_LONG));
    assert_eq!(DownloadToFileSystem { url: "", file_path: &long[..33] }.encode(&mut out), Err(Refusal::TEXT_TOO_LONG));
    assert_eq!(DownloadToFileSystem { url: "", file_path: "\r" }.encode(&mut out), Err(Refusal::TEXT_NOT_PLAIN));
    assert_eq!(out, [7; LONGEST_COMMAND]);
    let most = DownloadToFileSystem { url: &"\"".repeat(64), file_path: &"\\".repeat(32) }.encode(&mut out).map(|command| command.len());
    assert_eq!(most, Ok(LONGEST_COMMAND));
}

/// Written out with every field and no other, as a caller of the published program may.
#[test]
fn answers_and_their_fields() {
    assert_eq!(CloseOk::from_line("7, CLOSE OK"), Ok(CloseOk { connection: 7usize }));
    assert_eq!(Iccid::from_line("8988280666001104843f"), Ok(Iccid { country: 88u8, issuer: 28u8, account: 666001104843u64 }));
    assert_eq!(SimError::from_line("+CME ERROR: 10"), Ok(SimError::CmeErr { code: 10u32 }));
    assert_eq!(SimError::from_line("+CMS ERROR: 10"), Ok(SimError::CmsErr { code: 10u32 }));
    assert_eq!(SignalQuality::from_line("+CSQ: 99,0"), Ok(SignalQuality { signal_strength: None, signal_quality: Some(100.0 - 0.14f32) }));
    let info = SystemInfo { system_mode: SystemMode::Gsm, operation_mode: OperationMode::Reset };
    assert_eq!(SystemInfo::from_line("+CPSI: GSM,Reset,,,,,,,"), Ok(info));
    let info = OperatorInfo { mode: OperatorMode::ManualDeregister, format: OperatorFormat::Short, operator_name: "x" };
    assert_eq!(OperatorInfo::from_line("+COPS: 2,1,\"x\""), Ok(info));
    assert_eq!(NetworkTime::from_line("+CNTP: 62,t"), Ok(NetworkTime { code: SyncNtpStatusCode::DnsResolutionError, time: Some("t") }));
    assert_eq!(DownloadInfo::from_line("+HTTPTOFS: 604,5"), Ok(DownloadInfo { status_code: StatusCode::StackBusy, data_length: 5u64 }));
    assert_eq!(Imei::from_line("4901542032375181"), Ok(Imei { imei: "4901542032375181", is_version_number: true }));
    assert_eq!(SmsMessage::from_line("+CMGR: 1,\"+46\","), Ok(SmsMessage { sender: "+46", message: "" }));
    let fix = GnssFix {
        date_time: DateTime { year: 2024, month: 2, day: 29, hour: 23, minute: 58, second: 57 },
        latitude: 1.5,
        longitude: 2.5,
        altitude: 3.5,
        hdop: 6.5,
        pdop: 7.5,
        vdop: 8.5,
        speed_over_ground: 4.5,
        course_over_ground: 5.5,
        sat_gps_in_view: 9,
        sat_gnss_used: 10,
        sat_glonass_used: 11,
        signal_noise_ratio: 12,
    };
    let line = "+UGNSINF: 1,1,20240229235857.9,1.5,2.5,3.5,4.5,5.5,,,6.5,7.5,8.5,,9,10,11,,12,,";
    assert_eq!(GnssReport::from_line(line), Ok(GnssReport::Fix(fix)));
    assert_eq!(Urc::from_line(line), Ok(Urc::GnssReport(GnssReport::Fix(fix))));
    assert_eq!(
        GnssReport::from_line(&format!("+UGNSINF: 1,0{},8{}", ",".repeat(12), ",".repeat(6))),
        Ok(GnssReport::NoFix { sat_gps_view: Some(8u32) })
    );
    let registration = NetworkRegistration { status: RegistrationStatus::RegisteredRoaming, lac: Some(0xa5u16), ci: Some(0x1b2u32) };
    assert_eq!(NetworkRegistration::from_line("+CREG: 5,\"A5\",\"1B2\",7"), Ok(registration));
    assert_eq!(DateTime::default(), DateTime { year: 0, month: 0, day: 0, hour: 0, minute: 0, second: 0 });
}

#[test]
fn numbers_of_variants() {
    assert_eq!([SmsMessageFormat::Pdu as u8, SmsMessageFormat::Text as u8], [0, 1]);
    assert_eq!(
        [OperatorMode::Automatic as u8, OperatorMode::Manual as u8, OperatorMode::ManualDeregister as u8, OperatorMode::ManualAutomatic as u8],
        [0, 1, 2, 4]
    );
    assert_eq!([OperatorFormat::Long as u8, OperatorFormat::Short as u8, OperatorFormat::Numeric as u8], [0, 1, 2]);
    assert_eq!([StatusCode::Continue as u8, StatusCode::Ok as u8, StatusCode::SslContinue as u8, StatusCode::OtherErrors as u8], [0, 1, 12, 13]);
    use SyncNtpStatusCode::*;
    let codes = [Success, NetworkError, DnsResolutionError, ConnectionError, ServiceResponseError, ServiceResponseTimeout];
    assert_eq!(codes.map(|code| code as u8), [1, 61, 62, 63, 64, 65]);
    assert_eq!(StatusCode::Ok.success(), Ok(()));
    assert_eq!(StatusCode::Continue.success(), Err(StatusCode::Continue));
}

/// A text is a part of the line, and of no other.
#[test]
fn texts_are_parts_of_the_line() {
    let inside = |line: &str, text: &str, start: usize| assert_eq!(text.as_ptr() as usize - line.as_ptr() as usize, start);
    let line = String::from("+COPS: 0,0,\"\u{e9}\u{20ac}\",7");
    let info = OperatorInfo::from_line(&line).unwrap();
    assert_eq!(info.operator_name, "\u{e9}\u{20ac}");
    inside(&line, info.operator_name, 12);
    match Line::from_line(line.as_bytes()) {
        Ok(Line::Response(ResponseCode::OperatorInfo(again))) => {
            assert_eq!(again, info);
            inside(&line, again.operator_name, 12);
        }
        other => panic!("{:?}", other),
    }
    let line = String::from("+CNTP: 1,\u{1d11e}");
    inside(&line, NetworkTime::from_line(&line).unwrap().time.unwrap(), 9);
    let line = String::from("490154203237518");
    inside(&line, Imei::from_line(&line).unwrap().imei, 0);
}

/// The numbers of bindings/c/sim7000.h under its names.
#[test]
fn refusals_by_name() {
    let header = std::fs::read_to_string(concat!(env!("CARGO_MANIFEST_DIR"), "/../c/sim7000.h")).unwrap();
    for (name, refusal) in [
        ("LINE_TOO_LONG", Refusal::LINE_TOO_LONG),
        ("LINE_NOT_UTF8", Refusal::LINE_NOT_UTF8),
        ("NOT_ACCEPTED", Refusal::NOT_ACCEPTED),
        ("TEXT_IN_LINE_LONG", Refusal::TEXT_IN_LINE_LONG),
        ("TEXT_TOO_LONG", Refusal::TEXT_TOO_LONG),
        ("TEXT_NOT_PLAIN", Refusal::TEXT_NOT_PLAIN),
        ("OUT_TOO_SHORT", Refusal::OUT_TOO_SHORT),
        ("COMMAND_OPEN", Refusal::COMMAND_OPEN),
        ("LINE_UNFINISHED", Refusal::LINE_UNFINISHED),
        ("TEXT_BUFFER_SHORT", Refusal::TEXT_BUFFER_SHORT),
        ("NOT_OPERATOR_NUMBER", Refusal::NOT_OPERATOR_NUMBER),
        ("NO_SUCH_DATE", Refusal::NO_SUCH_DATE),
    ] {
        let behind = header.split(&format!("SIM7000_{} = ", name)).nth(1).unwrap_or_else(|| panic!("{} is not in the header", name));
        let digits: String = behind.chars().take_while(char::is_ascii_digit).collect();
        assert_eq!(digits, refusal.number().to_string());
        let why = refusal.to_string();
        assert!(why.starts_with(&format!("refused with {}: ", digits)) && !why.ends_with("unknown"), "{}", why);
    }
    assert_eq!(Refusal(200).to_string(), "refused with 200: unknown");
}

/// Each refusal of a call by its name.
#[test]
fn refusals_of_calls() {
    assert_eq!(ResponseCode::from_line(&"a".repeat(LONGEST_LINE + 1)), Err(Refusal::LINE_TOO_LONG));
    assert_eq!(ResponseCode::from_line(&"a".repeat(LONGEST_LINE)), Err(Refusal::NOT_ACCEPTED));
    assert_eq!(sort_line(b"\xff"), Err(Refusal::LINE_NOT_UTF8));
    let (mut desk, mut out, mut text) = (Desk::new(), [0; LONGEST_COMMAND], [0; LONGEST_LINE]);
    assert_eq!(desk.feed(b"OK", &mut text[1..]), Err(Refusal::TEXT_BUFFER_SHORT));
    assert!(desk.feed(b"OK", &mut text).unwrap().heard.is_none());
    assert_eq!(desk.open(GetImei, &mut out), Err(Refusal::LINE_UNFINISHED));
    assert_eq!(desk.feed(b"\n", &mut text).unwrap().heard.map(|heard| heard.event), Some(Event::Stray(None)));
    assert_eq!((desk.open(GetImei, &mut out).is_ok(), desk.open(GetImei, &mut out)), (true, Err(Refusal::COMMAND_OPEN)));
}

#[cfg(has_core_error)]
#[test]
fn a_refusal_is_an_error() {
    fn read(line: &str) -> Result<f32, Box<dyn core::error::Error>> {
        SignalQuality::from_line(line)?.signal_strength.ok_or_else(|| "unknown".into())
    }
    assert_eq!(read("+CSQ: 31,99").unwrap(), 100.0);
    assert_eq!(read("OK").unwrap_err().to_string(), "refused with 3: nothing accepts it");
}

/// The crate's version is the archive's. Where there is no Cargo, its file says it.
#[test]
fn the_version() {
    let file = std::fs::read_to_string(concat!(env!("CARGO_MANIFEST_DIR"), "/Cargo.toml")).unwrap();
    let version = file.lines().find_map(|line| line.strip_prefix("version = \"")?.strip_suffix('"')).unwrap();
    assert_eq!(version, option_env!("CARGO_PKG_VERSION").unwrap_or(version));
    let numbers: Vec<u32> = version.split('.').map(|number| number.parse().unwrap()).collect();
    assert!(numbers[1..].iter().all(|&number| number < 100));
    assert_eq!(sim7000::version(), numbers[0] * 10000 + numbers[1] * 100 + numbers[2]);
}
