//! Every call once, with the documents' lines and document 01's example of a desk.

use sim7000::*;

fn read(line: &str) -> Line<'_> {
    Line::from_line(line.as_bytes()).unwrap()
}

/// A stray with its number, or with none at 0.
fn strayed(number: u8) -> Event {
    Event::Stray((number != 0).then_some(Refusal(number)))
}

#[test]
fn lines_of_the_documents() {
    let signal =
        |strength, quality| Line::Response(ResponseCode::SignalQuality(SignalQuality { signal_strength: strength, signal_quality: quality }));
    assert_eq!(read("+CSQ: 0,99"), signal(Some(0.0), None));
    assert_eq!(read("+CSQ: 31,99"), signal(Some(100.0), None));
    assert_eq!(Line::from_line(b"+CSQ: 32,0"), Err(Refusal(3)));
    assert_eq!(Line::from_line(b"+CEREG: 1,"), Err(Refusal(3)));
    let registered = |status, lac, ci| Line::Unsolicited(Urc::NetworkRegistration(NetworkRegistration { status, lac, ci }));
    assert_eq!(read("+CEREG: 2,+5"), registered(RegistrationStatus::Searching, None, None));
    assert_eq!(read("+CGREG: 2,1,\"00A5\",\"01B2\",7,a,b,c"), registered(RegistrationStatus::RegisteredHome, Some(165), Some(434)));
    assert_eq!(read("+HTTPTOFS: 200,x"), Line::Response(ResponseCode::DownloadInfo(DownloadInfo { status_code: StatusCode::Ok, data_length: 0 })));
    let imei = |digits, is_version_number| Line::Response(ResponseCode::Imei(Imei { imei: digits, is_version_number }));
    assert_eq!(read("490154203237518"), imei("490154203237518", false));
    assert_eq!(read("4901542032375181"), imei("4901542032375181", true));
    assert_eq!(Line::from_line(b"490154203237517"), Err(Refusal(3)));
    assert_eq!(Line::from_line(b"49015420323751810"), Err(Refusal(3)));
    assert_eq!(
        read("+COPS: 0"),
        Line::Response(ResponseCode::OperatorInfo(OperatorInfo { mode: OperatorMode::Automatic, format: OperatorFormat::Long, operator_name: "" }))
    );
    assert_eq!(read("+UGNSINF: 0,,,,,,,,,,,,,,,,,,,,"), Line::Unsolicited(Urc::GnssReport(GnssReport::NotEnabled)));
    let date_time = DateTime { year: 2000, month: 2, day: 29, hour: 23, minute: 59, second: 58 };
    for date in ["20000229235958", "20000229235958.5"] {
        let line = fix(date, "59.5");
        assert!(
            matches!(read(&line), Line::Unsolicited(Urc::GnssReport(GnssReport::Fix(fix))) if fix.date_time == date_time && fix.latitude == 59.5)
        );
    }
}

/// A fix on this date, in the modem's 21 fields.
fn fix(date: &str, latitude: &str) -> String {
    format!("+UGNSINF: 1,1,{},{},18.25,44{}", date, latitude, ",".repeat(15))
}

#[test]
fn refusals_of_lines() {
    assert_eq!(Line::from_line(&[b'a'; 257]), Err(Refusal(1)));
    assert_eq!(Line::from_line(b"\xff"), Err(Refusal(2)));
    assert_eq!(Line::from_line(b""), Err(Refusal(3)));
    assert_eq!(Line::from_line(b"+CMGR: 0,\"123456789012345678901\",,"), Err(Refusal(4)));
    for date in ["", "2024010203040", "20230229123456.000", "20240102030405.", "20240102030460", "19791231235959", "21000101000000", "+0240102030405"]
    {
        for latitude in ["59.5", "x"] {
            assert_eq!(Line::from_line(fix(date, latitude).as_bytes()), Err(Refusal(13)));
            assert_eq!(sort_line(fix(date, latitude).as_bytes()), Err(Refusal(13)));
        }
    }
    assert_eq!(Line::from_line(fix("20000229235958", "x").as_bytes()), Err(Refusal(3)));
    assert_eq!(Refusal(13).to_string(), "refused with 13: a fix has no date that exists");
    assert_eq!(sort_line(b"OK"), Ok(1));
    assert_eq!(sort_line(b"+CREG: 1"), Ok(15));
    assert_eq!(sort_line(&[0xc0]), Err(Refusal(2)));
}

#[test]
fn commands() {
    let mut out = [7u8; 20];
    assert_eq!(Request::SetManualOperator { plmn: b"64304" }.encode(&mut out), Ok(&b"AT+COPS=1,2,\"64304\"\r"[..]));
    assert_eq!(Request::GetImei.encode(&mut out[..6]), Err(Refusal(7)));
    assert_eq!(Request::SetManualOperator { plmn: b"6430411" }.encode(&mut out), Err(Refusal(5)));
    assert_eq!(Request::SynchronizeNetworkTime { ntp_server: b"\n", timezone: 0, cid: 0 }.encode(&mut out), Err(Refusal(6)));
    for plmn in [&b""[..], b"6430", b"64304\"", b"6430\0", b"6430\xe9"] {
        assert_eq!(Request::SetManualOperator { plmn }.encode(&mut out), Err(Refusal(12)));
    }
    assert_eq!(Refusal(12).to_string(), "refused with 12: an operator number is not five or six digits");
    assert_eq!(&out, b"AT+COPS=1,2,\"64304\"\r");
    let mut wide = [7u8; 256];
    let size = Request::ReadSms { index: 255 }.encode(&mut wide).unwrap().len();
    assert_eq!(&wide[..size], b"AT+CMGR=255\r");
    assert!(wide[size..].iter().all(|&byte| byte == 7));
}

/// An event, its line's ordinal and its line.
type Told = (Event, u32, Vec<u8>);

/// What a desk hears of bytes that come in chunks of so many.
fn heard(desk: &mut Desk, bytes: &[u8], chunk: usize) -> Vec<Told> {
    let (mut text, mut all) = ([0; 256], Vec::new());
    for mut rest in bytes.chunks(chunk) {
        while !rest.is_empty() {
            let fed = desk.feed(rest, &mut text).unwrap();
            all.extend(fed.heard.map(|Heard { event, ordinal, line, .. }| (event, ordinal, line.to_vec())));
            rest = &rest[fed.taken..];
        }
    }
    all
}

/// The same of a desk with AT+CSQ open.
fn events(bytes: &[u8], chunk: usize) -> Vec<Told> {
    let (mut desk, mut out) = (Desk::new(), [0; 64]);
    assert_eq!(desk.open(Request::GetSignalQuality, &mut out), Ok(&b"AT+CSQ\r"[..]));
    assert!(desk.is_open());
    heard(&mut desk, bytes, chunk)
}

/// The same with its echo awaited, and whether the command is open after them. The buffer that it was written to is overwritten first.
fn echo_events(bytes: &[u8], chunk: usize) -> (Vec<Told>, bool) {
    let (mut desk, mut out) = (Desk::new(), [0; 64]);
    assert_eq!(desk.open_echo(Request::GetSignalQuality, &mut out), Ok(&b"AT+CSQ\r"[..]));
    assert!(desk.is_open());
    out.fill(b'x');
    let all = heard(&mut desk, bytes, chunk);
    (all, desk.is_open())
}

fn line(event: Event, ordinal: u32, line: &[u8]) -> Told {
    (event, ordinal, line.to_vec())
}

#[test]
fn document_01s_example_in_every_cut() {
    let bytes = b"\r\n+CEREG: 5\r\n\r\n+CSQ: 31,99\r\n\r\nOK\r\n";
    let expected = vec![line(Event::Unsolicited, 1, b"+CEREG: 5"), line(Event::Taken, 2, b"+CSQ: 31,99"), line(Event::Done, 3, b"OK")];
    for chunk in 1..=bytes.len() {
        assert_eq!(events(bytes, chunk), expected);
    }
}

#[test]
fn the_other_events() {
    let mut bytes = b"ERROR\nOK\n\xff\n> ".to_vec();
    bytes.extend([b'a'; 257]);
    bytes.push(b'\n');
    let expected = vec![
        line(Event::Failed, 1, b"ERROR"),
        line(strayed(0), 2, b"OK"),
        line(strayed(2), 3, b"\xff"),
        line(strayed(0), 4, b"> "),
        line(Event::Overlong, 5, b""),
    ];
    assert_eq!(events(&bytes, 5), expected);
    assert_eq!(events(b"OK\n", 3), vec![line(Event::Short, 1, b"OK")]);
}

/// AT+GSN is answered by an IMEI and by a version number, and by digits of no other count.
#[test]
fn what_answers_gsn() {
    let answered = |number: &[u8]| {
        let (mut desk, mut out) = (Desk::new(), [0; 64]);
        assert!(desk.open(Request::GetImei, &mut out).is_ok());
        heard(&mut desk, &[number, b"\r\nOK\r\n"].concat(), 5)
    };
    for number in [&b"490154203237518"[..], b"4901542032375180", b"4901542032375181"] {
        assert_eq!(answered(number), [line(Event::Taken, 1, number), line(Event::Done, 2, b"OK")]);
    }
    for number in [&b"490154203237517"[..], b"49015420323751", b"49015420323751810"] {
        assert_eq!(answered(number), [line(strayed(3), 1, number), line(Event::Short, 2, b"OK")]);
    }
}

/// A fix on a day that was never is a stray, before the echo and after it, and nothing is closed by it.
#[test]
fn a_fix_without_a_date() {
    let (bad, good) = (fix("20230229123456.000", "59.5"), fix("20240229123456.000", "59.5"));
    let bytes = format!("{bad}\r\n{good}\r\nAT+CSQ\r\n{bad}\r\n+CSQ: 31,99\r\n{bad}\r\nOK\r\n{bad}\r\n");
    let stray = |ordinal| line(strayed(13), ordinal, bad.as_bytes());
    let expected = |echo| {
        vec![
            stray(1),
            line(Event::Unsolicited, 2, good.as_bytes()),
            line(echo, 3, b"AT+CSQ"),
            stray(4),
            line(Event::Taken, 5, b"+CSQ: 31,99"),
            stray(6),
            line(Event::Done, 7, b"OK"),
            stray(8),
        ]
    };
    assert_eq!(events(bytes.as_bytes(), 7), expected(strayed(3)));
    assert_eq!(echo_events(bytes.as_bytes(), 7), (expected(Event::Echo), false));
}

/// What an earlier command's late reply is in both modes.
#[test]
fn a_late_reply_in_every_cut() {
    let bytes = b"\r\n+CSQ: 5,0\r\n\r\nOK\r\nAT+CSQ\r\r\n\r\n+CEREG: 5\r\n\r\n+CSQ: 31,99\r\n\r\nOK\r\n";
    let expected = vec![
        line(strayed(0), 1, b"+CSQ: 5,0"),
        line(strayed(0), 2, b"OK"),
        line(Event::Echo, 3, b"AT+CSQ\r"),
        line(Event::Unsolicited, 4, b"+CEREG: 5"),
        line(Event::Taken, 5, b"+CSQ: 31,99"),
        line(Event::Done, 6, b"OK"),
    ];
    for chunk in 1..=bytes.len() {
        assert_eq!(echo_events(bytes, chunk), (expected.clone(), false));
    }
    assert_eq!(events(bytes, 7)[..2], [line(Event::Taken, 1, b"+CSQ: 5,0"), line(Event::Done, 2, b"OK")]);
}

#[test]
fn the_echo_with_and_without_its_cr() {
    assert_eq!(echo_events(b"AT+CSQ\r\r\n", 9), (vec![line(Event::Echo, 1, b"AT+CSQ\r")], true));
    assert_eq!(echo_events(b"AT+CSQ\r\n", 8), (vec![line(Event::Echo, 1, b"AT+CSQ")], true));
    assert_eq!(echo_events(b"AT+CSQ\n", 7), (vec![line(Event::Echo, 1, b"AT+CSQ")], true));
    let others: [&[u8]; 11] =
        [b"AT+CS", b"A", b"AT+CSQ?", b"AT+CSQ\r\r", b"AT+CSQ\r?", b"at+csq", b" AT+CSQ", b"AT+CSQ ", b"AT+CSR", b"BT+CSQ\r", b"AT+CSQ\0"];
    for other in others {
        let bytes = [other, b"\r\n"].concat();
        assert_eq!(echo_events(&bytes, bytes.len()), (vec![line(strayed(3), 1, other)], true), "{}", other.escape_ascii());
    }
}

#[test]
fn before_the_echo_and_after_it() {
    let strays: [(&[u8], u8); 9] = [
        (b"OK", 0),
        (b"ERROR", 0),
        (b"+CME ERROR: 10", 0),
        (b"+CSQ: 31,99", 0),
        (b"490154203237518", 0),
        (b"\xff", 2),
        (b"AT+CSQ?", 3),
        (b"+CMGR: 0,\"123456789012345678901\",,", 4),
        (b"OK", 0),
    ];
    let (mut bytes, mut expected) = (Vec::new(), Vec::new());
    for (ordinal, (stray, number)) in (1..).zip(strays) {
        bytes.extend([stray, b"\r\n"].concat());
        expected.push(line(strayed(number), ordinal, stray));
    }
    bytes.extend(b"> \r\n+CEREG: 5\r\n");
    bytes.extend([b'a'; 257]);
    bytes.extend(b"\r\n");
    expected.extend([line(strayed(0), 10, b"> "), line(Event::Unsolicited, 11, b"+CEREG: 5"), line(Event::Overlong, 12, b"")]);
    assert_eq!(echo_events(&bytes, 1), (expected.clone(), true));
    bytes.extend(b"AT+CSQ\r\r\nAT+CSQ\r\r\nAT+CSQ\r\n");
    expected.extend([line(Event::Echo, 13, b"AT+CSQ\r"), line(strayed(3), 14, b"AT+CSQ\r"), line(strayed(3), 15, b"AT+CSQ")]);
    let all = vec![line(Event::Taken, 16, b"+CSQ: 31,99"), line(Event::Done, 17, b"OK"), line(strayed(3), 18, b"AT+CSQ\r")];
    for (answers, told) in [
        (&b"+CSQ: 31,99\r\nOK\r\nAT+CSQ\r\r\n"[..], all),
        (b"ERROR\r\n", vec![line(Event::Failed, 16, b"ERROR")]),
        (b"OK\r\n", vec![line(Event::Short, 16, b"OK")]),
    ] {
        let (bytes, expected) = ([&bytes, answers].concat(), [&expected[..], &told].concat());
        assert_eq!(echo_events(&bytes, 1), (expected.clone(), false));
        assert_eq!(echo_events(&bytes, bytes.len()), (expected, false));
    }
}

#[test]
fn the_longest_command_comes_back() {
    let (mut desk, mut out) = (Desk::new(), [0; 210]);
    let command = desk.open_echo(Request::DownloadToFileSystem { url: &[b'"'; 64], file_path: &[b'"'; 32] }, &mut out).unwrap().to_vec();
    assert_eq!(command.len(), 210);
    let (mut long, mut other) = (command.clone(), command.clone());
    long.insert(209, b'"');
    other[208] = b'x';
    let bytes = [&long, &b"\r\n"[..], &other, b"\r\n", &command[..209], b"\r\n", &command, b"\r\n"].concat();
    let expected = [line(strayed(3), 1, &long), line(strayed(3), 2, &other), line(Event::Echo, 3, &command[..209]), line(strayed(3), 4, &command)];
    assert_eq!(heard(&mut desk, &bytes, 64), expected);
    // of the long command only bytes behind the next one are left, and they change nothing
    desk.reset();
    assert!(desk.open_echo(Request::GetSignalQuality, &mut out).is_ok());
    let expected = [line(strayed(0), 1, b"+CSQ: 5,0"), line(Event::Echo, 2, b"AT+CSQ"), line(Event::Taken, 3, b"+CSQ: 31,99")];
    assert_eq!(heard(&mut desk, b"+CSQ: 5,0\nAT+CSQ\n+CSQ: 31,99\n", 64), expected);
}

#[test]
fn a_plain_open_awaits_no_echo() {
    let (mut desk, mut out) = (Desk::new(), [0; 64]);
    assert!(desk.open_echo(Request::GetSignalQuality, &mut out).is_ok());
    desk.reset();
    assert_eq!(heard(&mut desk, b"AT+CSQ\n", 64), [line(strayed(3), 1, b"AT+CSQ")]);
    assert!(desk.open(Request::GetSignalQuality, &mut out).is_ok());
    assert_eq!(heard(&mut desk, b"AT+CSQ\n+CSQ: 31,99\n", 64), [line(strayed(3), 1, b"AT+CSQ"), line(Event::Taken, 2, b"+CSQ: 31,99")]);
}

#[test]
fn refusals_of_an_open_in_echo_mode() {
    let (mut desk, mut out, mut text) = (Desk::new(), [7; 64], [0; 256]);
    assert_eq!(desk.feed(b"+C", &mut text).map(|fed| (fed.taken, fed.heard)), Ok((2, None)));
    assert_eq!(desk.open_echo(Request::GetImei, &mut out), Err(Refusal(9)));
    desk.reset();
    assert_eq!(desk.open_echo(Request::SetManualOperator { plmn: b"6430411" }, &mut out), Err(Refusal(5)));
    assert_eq!(desk.open_echo(Request::SetManualOperator { plmn: b"64304\"" }, &mut out), Err(Refusal(12)));
    assert_eq!(desk.open_echo(Request::DownloadToFileSystem { url: b"\n", file_path: b"" }, &mut out), Err(Refusal(6)));
    assert_eq!(desk.open_echo(Request::GetImei, &mut out[..6]), Err(Refusal(7)));
    assert_eq!(out, [7; 64]);
    assert!(!desk.is_open());
    assert_eq!(desk.open_echo(Request::GetImei, &mut out[..7]), Ok(&b"AT+GSN\r"[..]));
    // refused, it leaves AT+GSN awaited
    assert_eq!(desk.open_echo(Request::GetSignalQuality, &mut out), Err(Refusal(8)));
    assert_eq!(desk.open(Request::GetSignalQuality, &mut out), Err(Refusal(8)));
    assert_eq!(heard(&mut desk, b"AT+CSQ\nAT+GSN\n", 64), [line(strayed(3), 1, b"AT+CSQ"), line(Event::Echo, 2, b"AT+GSN")]);
}

#[test]
fn refusals_of_a_desk() {
    let (mut desk, mut out, mut text) = (Desk::new(), [0; 64], [0; 256]);
    assert_eq!(desk.feed(b"+C", &mut text[..255]), Err(Refusal(10)));
    assert_eq!(desk.feed(b"+C", &mut text).map(|fed| (fed.taken, fed.heard)), Ok((2, None)));
    assert_eq!(desk.open(Request::GetImei, &mut out), Err(Refusal(9)));
    desk.reset();
    assert!(desk.open(Request::GetImei, &mut out).is_ok());
    assert_eq!(desk.open(Request::GetImei, &mut out), Err(Refusal(8)));
    desk.reset();
    assert!(!desk.is_open());
    assert_eq!(desk.open(Request::GetImei, &mut out[..3]), Err(Refusal(7)));
    assert_eq!(desk.open(Request::SetManualOperator { plmn: b"64304\"" }, &mut out), Err(Refusal(12)));
    assert!(!desk.is_open());
}

/// Empty lines are not counted; an overlong one is, and a prompt, with what follows it as the next line.
#[test]
fn ordinals_in_every_cut() {
    let bytes = [&b"\r\n\n+CEREG: 5\r\n> \r\n> +CEREG: 1\r\n\r\n"[..], &[b'a'; 257], b"\r\n\r\r\nOK\r\n"].concat();
    let expected = vec![
        line(Event::Unsolicited, 1, b"+CEREG: 5"),
        line(strayed(0), 2, b"> "),
        line(strayed(0), 3, b"> "),
        line(Event::Unsolicited, 4, b"+CEREG: 1"),
        line(Event::Overlong, 5, b""),
        line(strayed(3), 6, b"\r"),
        line(Event::Short, 7, b"OK"),
    ];
    for chunk in 1..=bytes.len() {
        assert_eq!(events(&bytes, chunk), expected);
    }
}

/// The ordinal of a line that changes nothing but the count.
fn next(desk: &mut Desk) -> u32 {
    let told = heard(desk, b"+CEREG: 5\r\n", 64);
    assert_eq!(told, [line(Event::Unsolicited, told[0].1, b"+CEREG: 5")]);
    told[0].1
}

type Opens = for<'o> fn(&mut Desk, &Request<'_>, &'o mut [u8]) -> Result<&'o [u8], Refusal>;

fn open<'o>(desk: &mut Desk, request: &Request<'_>, out: &'o mut [u8]) -> Result<&'o [u8], Refusal> {
    desk.open(request, out)
}

fn open_echo<'o>(desk: &mut Desk, request: &Request<'_>, out: &'o mut [u8]) -> Result<&'o [u8], Refusal> {
    desk.open_echo(request, out)
}

/// At a new desk, at an accepted open in either mode and at a reset; nowhere else.
#[test]
fn where_the_count_begins() {
    for opens in [open as Opens, open_echo] {
        let (mut desk, mut out) = (Desk::new(), [0; 64]);
        assert_eq!([next(&mut desk), next(&mut desk)], [1, 2]);
        assert_eq!(opens(&mut desk, &Request::SetManualOperator { plmn: b"6430411" }, &mut out), Err(Refusal(5)));
        assert_eq!(next(&mut desk), 3);
        assert_eq!(opens(&mut desk, &Request::SetManualOperator { plmn: b"64304\"" }, &mut out), Err(Refusal(12)));
        assert_eq!(next(&mut desk), 4);
        assert_eq!(opens(&mut desk, &Request::DownloadToFileSystem { url: b"\n", file_path: b"" }, &mut out), Err(Refusal(6)));
        assert_eq!(next(&mut desk), 5);
        assert_eq!(opens(&mut desk, &Request::GetImei, &mut out[..6]), Err(Refusal(7)));
        assert_eq!(next(&mut desk), 6);
        assert!(heard(&mut desk, b"\r\n+C", 3).is_empty());
        assert_eq!(opens(&mut desk, &Request::GetImei, &mut out), Err(Refusal(9)));
        assert_eq!(heard(&mut desk, b"\r\n", 2), [line(strayed(3), 7, b"+C")]);

        assert!(opens(&mut desk, &Request::GetImei, &mut out).is_ok());
        assert_eq!([next(&mut desk), next(&mut desk)], [1, 2]);
        assert_eq!(opens(&mut desk, &Request::GetImei, &mut out), Err(Refusal(8)));
        assert_eq!(next(&mut desk), 3);
        assert!(heard(&mut desk, b"+CSQ", 4).is_empty());
        desk.reset();
        assert_eq!(heard(&mut desk, b": 5,0\r\n", 7), [line(strayed(3), 1, b": 5,0")]);
        assert_eq!(next(&mut desk), 2);

        // the last awaited answer closes the command, and the count goes on; the next open begins it anew
        assert!(opens(&mut desk, &Request::GetImei, &mut out).is_ok());
        let told = heard(&mut desk, b"AT+GSN\r\r\n490154203237518\r\nOK\r\n", 64);
        assert_eq!(told[1..], [line(Event::Taken, 2, b"490154203237518"), line(Event::Done, 3, b"OK")]);
        assert_eq!((told[0].1, next(&mut desk)), (1, 4));
        assert!(opens(&mut desk, &Request::GetSignalQuality, &mut out).is_ok());
        assert_eq!(next(&mut desk), 1);
    }
}
