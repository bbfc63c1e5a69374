//! A whole slice fed through `Desk::hear`: the same events as `feed` gives, whatever the cuts, and no byte lost.

use sim7000::*;

/// An event, its line's ordinal and its line.
type Told = (Event, u32, Vec<u8>);

const BYTES: &[u8] = b"\r\n+CSQ: 5,0\r\nAT+CSQ\r\r\n\r\n+CEREG: 5\r\n\xff\r\n> +CSQ: 31,99\r\n\r\nOK\r\n+CREG: 1,2,3\r\n+CS";

fn opened() -> Desk {
    let (mut desk, mut out) = (Desk::new(), [0; LONGEST_COMMAND]);
    assert_eq!(desk.open_echo(GetSignalQuality, &mut out), Ok(&b"AT+CSQ\r"[..]));
    desk
}

/// What `next` gives until it gives nothing.
fn told(hearing: &mut Hearing<'_, '_>) -> Vec<Told> {
    let mut all = Vec::new();
    while let Some(heard) = hearing.next() {
        all.push((heard.event, heard.ordinal, heard.line.to_vec()));
    }
    all
}

fn expected() -> Vec<Told> {
    let line = |event, ordinal, line: &[u8]| (event, ordinal, line.to_vec());
    vec![
        line(Event::Stray(None), 1, b"+CSQ: 5,0"),
        line(Event::Echo, 2, b"AT+CSQ\r"),
        line(Event::Unsolicited, 3, b"+CEREG: 5"),
        line(Event::Stray(Some(Refusal::LINE_NOT_UTF8)), 4, b"\xff"),
        line(Event::Stray(None), 5, b"> "),
        line(Event::Taken, 6, b"+CSQ: 31,99"),
        line(Event::Done, 7, b"OK"),
        line(Event::Stray(Some(Refusal::NOT_ACCEPTED)), 8, b"+CREG: 1,2,3"),
    ]
}

#[test]
fn all_events_in_every_cut() {
    for chunk in 1..=BYTES.len() {
        let (mut desk, mut text, mut all) = (opened(), [0; LONGEST_LINE], Vec::new());
        for bytes in BYTES.chunks(chunk) {
            let mut hearing = desk.hear(bytes, &mut text);
            all.extend(told(&mut hearing));
            assert_eq!(hearing.rest(), b"");
            assert!(hearing.next().is_none());
        }
        assert_eq!(all, expected());
        // the last bytes are held, not dropped
        let mut hearing = desk.hear(b"Q: 1,2\r\n", &mut text);
        assert_eq!(told(&mut hearing), [(Event::Stray(None), 9, b"+CSQ: 1,2".to_vec())]);
    }
}

/// Stopped behind each event in turn, and gone on with what was left.
#[test]
fn what_is_left_is_not_lost() {
    let all = expected();
    for stop in 0..=all.len() {
        let (mut desk, mut text, mut heard) = (opened(), [0; LONGEST_LINE], Vec::new());
        let mut hearing = desk.hear(BYTES, &mut text);
        for _ in 0..stop {
            heard.extend(hearing.next().map(|one| (one.event, one.ordinal, one.line.to_vec())));
        }
        let rest = hearing.rest();
        assert!(rest.len() >= 3 && BYTES.ends_with(rest));
        heard.extend(told(&mut desk.hear(rest, &mut text)));
        assert_eq!(heard, all);
    }
}

#[test]
fn the_next_command_between_two_events() {
    let (mut desk, mut text, mut out) = (opened(), [0; LONGEST_LINE], [0; LONGEST_COMMAND]);
    let mut hearing = desk.hear(b"AT+CSQ\r\r\n+CSQ: 31,99\r\nOK\r\nAT+GSN\r\r\n490154203237518\r\nOK\r\n", &mut text);
    let mut all = Vec::new();
    while let Some(Heard { event, ordinal, .. }) = hearing.next() {
        all.push((event, ordinal));
        if event == Event::Done && all.len() == 3 {
            assert_eq!(hearing.desk().open_echo(GetImei, &mut out), Ok(&b"AT+GSN\r"[..]));
        }
    }
    let thrice = [(Event::Echo, 1), (Event::Taken, 2), (Event::Done, 3)];
    assert_eq!(all, [thrice, thrice].concat());
    assert!(!desk.is_open());
}

#[test]
fn no_bytes_and_texts() {
    let (mut desk, mut text) = (Desk::new(), [7; LONGEST_LINE]);
    assert!(desk.hear(b"", &mut text).next().is_none());
    assert!(desk.hear(b"+C", &mut text).next().is_none());
    assert_eq!(text, [7; LONGEST_LINE]);
    let mut hearing = desk.hear("OPS: 0,0,\"\u{e9}\"\n\u{e9}\n".as_bytes(), &mut text);
    assert_eq!(hearing.next().and_then(|heard| heard.text()), Some("+COPS: 0,0,\"\u{e9}\""));
    assert_eq!(hearing.next().and_then(|heard| heard.text()), Some("\u{e9}"));
    let mut hearing = desk.hear(b"\xc3\n", &mut text);
    assert_eq!(hearing.next().and_then(|heard| heard.text()), None);
    assert_eq!(desk.hear(&[b'a'; 300], &mut text).next(), None);
    let overlong = desk.hear(b"\n", &mut text).next().map(|heard| (heard.event, heard.line.len(), heard.text().is_some()));
    assert_eq!(overlong, Some((Event::Overlong, 0, true)));
}
