//! The desk's exports as C calls them, on lent parts: states and requests that no wrapper makes, and every lent byte before and after.

// names the library, whose archive is linked with it
use sim7000 as _;

#[allow(dead_code)]
#[path = "../src/raw.rs"]
mod raw;

#[derive(Debug, Clone, PartialEq)]
struct Parts {
    line: [u8; 257],
    sent: [u8; 210],
    state: [u64; 4],
}

/// All that an open is lent to write to.
#[derive(Debug, Clone, PartialEq)]
struct Lent {
    desk: Parts,
    out: Vec<u8>,
    size: u64,
}

struct Asked<'a> {
    request: u8,
    first: &'a [u8],
    second: &'a [u8],
}

/// The greatest ordinal.
const GREATEST: u64 = 4294967295;

const SIGNAL: Asked = Asked { request: 0, first: b"", second: b"" };

fn parts(sent: [u8; 210], state: [u64; 4]) -> Parts {
    Parts { line: [0x55; 257], sent, state }
}

/// The bytes in front, and 0xAA behind them.
fn sent(front: &[u8]) -> [u8; 210] {
    let mut all = [0xaa; 210];
    all[..front.len()].copy_from_slice(front);
    all
}

fn lent(desk: Parts, out: usize) -> Lent {
    Lent { desk, out: vec![7; out], size: 99 }
}

fn open(lent: &mut Lent, a: &Asked) -> u8 {
    let (first, second, out) = (a.first, a.second, &mut lent.out);
    unsafe {
        raw::sim7000_open(
            &mut lent.desk.state,
            a.request,
            300,
            1,
            first.as_ptr(),
            first.len(),
            second.as_ptr(),
            second.len(),
            out.as_mut_ptr(),
            out.len(),
            &mut lent.size,
        )
    }
}

fn open_echo(lent: &mut Lent, a: &Asked) -> u8 {
    let (first, second, out) = (a.first, a.second, &mut lent.out);
    unsafe {
        raw::sim7000_open_echo(
            &mut lent.desk.state,
            &mut lent.desk.sent,
            a.request,
            300,
            1,
            first.as_ptr(),
            first.len(),
            second.as_ptr(),
            second.len(),
            out.as_mut_ptr(),
            out.len(),
            &mut lent.size,
        )
    }
}

fn feed(desk: &mut Parts, chunk: &[u8], text: &mut [u8], told: &mut [u64; 5]) -> u8 {
    unsafe { raw::sim7000_feed(&mut desk.line, &mut desk.state, &desk.sent, chunk.as_ptr(), chunk.len(), text.as_mut_ptr(), text.len(), told) }
}

/// An event's number, its line's ordinal, its stray number and its line.
type Told = (u64, u64, u64, Vec<u8>);

/// What is told of bytes that come in chunks of so many. Without an event all but the bytes taken are 0.
fn events(desk: &mut Parts, bytes: &[u8], chunk: usize) -> Vec<Told> {
    let (mut text, mut told, mut all) = ([0; 256], [9; 5], Vec::new());
    let kept = desk.sent;
    for mut rest in bytes.chunks(chunk) {
        while !rest.is_empty() {
            assert_eq!(feed(desk, rest, &mut text, &mut told), 0);
            if told[0] != 0 {
                all.push((told[0], told[4], told[3], text[..told[2] as usize].to_vec()));
            } else {
                assert_eq!(told, [0, rest.len() as u64, 0, 0, 0]);
            }
            rest = &rest[told[1] as usize..];
        }
    }
    assert_eq!(desk.sent, kept);
    all
}

const LATE: &[u8] = b"+CSQ: 5,0\r\nAT+CSQ\r\r\n+CSQ: 31,99\r\nOK\r\n";

fn late(first: u64, echo: (u64, u64), second: u64, last: (u64, u64)) -> Vec<Told> {
    vec![
        (first, 1, 0, b"+CSQ: 5,0".to_vec()),
        (echo.0, 2, echo.1, b"AT+CSQ\r".to_vec()),
        (second, 3, 0, b"+CSQ: 31,99".to_vec()),
        (last.0, 4, last.1, b"OK".to_vec()),
    ]
}

/// `LATE` with AT+CSQ's echo awaited, and with the command open and none awaited.
fn with_echo() -> Vec<Told> {
    late(6, (8, 0), 2, (3, 0))
}

fn without_echo() -> Vec<Told> {
    late(2, (6, 3), 6, (3, 0))
}

/// One fault after the other is mended: no such request, a command open, a line held, each `bad` first text with its refusal, of which the first is 5, a
/// buffer one byte short. What is refused changes nothing that was lent.
fn each_refusal(opens: fn(&mut Lent, &Asked) -> u8, request: u8, bad: &[(u8, &[u8])], good: &[u8], size: usize) {
    let mut all = lent(parts([0xaa; 210], [3, 6, 7, 5]), size - 1);
    let mut steps = vec![(3, bad[0].1), (8, bad[0].1), (9, bad[0].1)];
    steps.extend(bad);
    steps.push((7, good));
    for (refusal, first) in steps {
        match refusal {
            9 => all.desk.state[1] = 0,
            5 => all.desk.state[0] = 0,
            _ => {}
        }
        for (echo, count) in [(0, 5), (7, 0), (210, GREATEST), (211, GREATEST + 1), (u64::MAX, u64::MAX)] {
            all.desk.state[2] = echo;
            all.desk.state[3] = count;
            let before = all.clone();
            assert_eq!(opens(&mut all, &Asked { request: if refusal == 3 { 13 } else { request }, first, second: &[b'"'; 32] }), refusal);
            assert_eq!(all, before);
        }
    }
    all.out.push(7);
    assert_eq!(opens(&mut all, &Asked { request, first: good, second: &[b'"'; 32] }), 0);
    assert_eq!((all.size, all.desk.state[3]), (size as u64, 0));
}

#[test]
fn a_refused_open_changes_nothing() {
    for opens in [open, open_echo] {
        each_refusal(opens, 9, &[(5, &[b'\n'; 65]), (6, &[b'\n'; 64])], &[b'"'; 64], 210);
        each_refusal(opens, 4, &[(5, &[0; 7]), (12, &[0; 6]), (12, b"64304\""), (12, b"6430"), (12, b"")], b"64304", 20);
        each_refusal(opens, 4, &[(5, b"6430410"), (12, b"\xe9\xe9"), (12, b"643 04")], b"643041", 21);
    }
    for request in 13..=255 {
        let mut all = lent(parts([0xaa; 210], [0; 4]), 64);
        let before = all.clone();
        assert_eq!(open_echo(&mut all, &Asked { request, ..SIGNAL }), 3);
        assert_eq!(all, before);
    }
}

#[test]
fn an_open_keeps_the_command_in_front() {
    for old in [0, 7, 211, u64::MAX] {
        let mut all = lent(parts([0xaa; 210], [0, 0, old, old]), 64);
        assert_eq!(open_echo(&mut all, &SIGNAL), 0);
        assert_eq!((&all.out[..7], all.size), (&b"AT+CSQ\r"[..], 7));
        assert_eq!((all.desk.state[0], all.desk.state[2], all.desk.state[3]), (0, 7, 0));
        assert!(all.out[7..].iter().all(|&byte| byte == 7));
        assert_eq!(all.desk.sent, sent(b"AT+CSQ\r"));
        all.out.fill(0);
        for chunk in 1..=LATE.len() {
            assert_eq!(events(&mut all.desk.clone(), LATE, chunk), with_echo());
        }
    }
}

#[test]
fn bytes_behind_the_kept_command_do_not_matter() {
    let mut all = lent(parts([0; 210], [0; 4]), 64);
    assert_eq!(open_echo(&mut all, &SIGNAL), 0);
    for fill in [0, b'\r', b'\n', b'Q', 0xaa] {
        let mut desk = all.desk.clone();
        desk.sent[7..].fill(fill);
        assert_eq!(events(&mut desk, LATE, LATE.len()), with_echo());
    }
}

#[test]
fn a_plain_open_awaits_no_echo_whatever_was_kept() {
    for old in [0, 7, 210, 211, u64::MAX] {
        let mut all = lent(parts(sent(b"AT+CSQ\r"), [0, 0, old, old]), 64);
        assert_eq!(open(&mut all, &SIGNAL), 0);
        assert_eq!(all.desk.state[2..], [0, 0]);
        assert_eq!(events(&mut all.desk, LATE, 5), without_echo());
    }
}

#[test]
fn a_size_above_210_awaits_none() {
    let mut all = lent(parts([0; 210], [0; 4]), 64);
    assert_eq!(open(&mut all, &SIGNAL), 0);
    for size in [0, 211, 257, 1 << 32, (1 << 32) + 7, u64::MAX] {
        let mut desk = parts(sent(b"AT+CSQ\r"), [0, all.desk.state[1], size, 40]);
        let expected = vec![(6, 41, 3, b"AT+CSQ\r".to_vec()), (2, 42, 0, b"+CSQ: 31,99".to_vec()), (3, 43, 0, b"OK".to_vec())];
        assert_eq!(events(&mut desk, b"AT+CSQ\r\r\n+CSQ: 31,99\r\nOK\r\n", 4), expected);
    }
}

/// No content is ill-formed: an echo that is awaited while no command is open, and one that is no command.
#[test]
fn any_kept_bytes_are_awaited() {
    let mut desk = parts(sent(b"AT+CSQ\r"), [0, 0, 7, 0]);
    assert_eq!(events(&mut desk, LATE, 3), late(6, (8, 0), 6, (6, 0)));
    assert_eq!(desk.state[2..], [0, 4]);
    let mut desk = parts([b'z'; 210], [0, 0, 210, 0]);
    let line = vec![b'z'; 210];
    let bytes = [&line[..209], b"\n", &line, b"\n", &line, b"\n"].concat();
    assert_eq!(events(&mut desk, &bytes, 100), [(6, 1, 3, line[..209].to_vec()), (8, 2, 0, line.clone()), (6, 3, 3, line)]);
}

#[test]
fn a_reset_awaits_none_and_leaves_what_was_kept() {
    let mut all = lent(parts([0xaa; 210], [0; 4]), 64);
    assert_eq!(open_echo(&mut all, &SIGNAL), 0);
    all.desk.state[3] = 40;
    unsafe { raw::sim7000_reset(&mut all.desk.state) };
    assert_eq!(all.desk.state, [0; 4]);
    assert_eq!(events(&mut all.desk.clone(), b"AT+CSQ\n", 7), [(6, 1, 3, b"AT+CSQ".to_vec())]);
    assert_eq!(open(&mut all, &SIGNAL), 0);
    assert_eq!(events(&mut all.desk, b"AT+CSQ\n+CSQ: 31,99\n", 4), [(6, 1, 3, b"AT+CSQ".to_vec()), (2, 2, 0, b"+CSQ: 31,99".to_vec())]);
}

/// Every number of state[1] that awaits an answer, and the others.
#[test]
fn a_command_is_open_where_one_is_awaited() {
    for awaited in (0..=400).chain([1 << 32, (1 << 32) + 6, u64::MAX]) {
        for others in [0, 7, u64::MAX] {
            let state = [others, awaited, others, others];
            assert_eq!(unsafe { raw::sim7000_is_open(&state) }, u8::from((1..=182).contains(&awaited)), "{}", awaited);
        }
    }
}

#[test]
fn a_refused_feed_changes_nothing() {
    let mut all = lent(parts([0xaa; 210], [0; 4]), 64);
    assert_eq!(open_echo(&mut all, &SIGNAL), 0);
    for count in [0, 40, GREATEST + 1, u64::MAX] {
        all.desk.state[3] = count;
        let (before, mut text, mut told) = (all.clone(), [7; 255], [9; 5]);
        assert_eq!(feed(&mut all.desk, LATE, &mut text, &mut told), 10);
        assert_eq!((&all, text, told), (&before, [7; 255], [9; 5]));
    }
}

/// Every kind of line is counted, and the count stays at the greatest; a number above it is read as it.
#[test]
fn the_count_stays_at_the_greatest() {
    let overlong = [&[b'a'; 257][..], b"\r\n"].concat();
    let lines: [(&[u8], u64, &[u8]); 4] = [(b"\r\nOK\r\n", 6, b"OK"), (b"> ", 6, b"> "), (b"\n+CEREG: 5\n", 1, b"+CEREG: 5"), (&overlong, 7, b"")];
    for (count, ordinals) in [
        (0, [1, 2]),
        (40, [41, 42]),
        (GREATEST - 2, [GREATEST - 1, GREATEST]),
        (GREATEST - 1, [GREATEST; 2]),
        (GREATEST, [GREATEST; 2]),
        (GREATEST + 1, [GREATEST; 2]),
        (1 << 63, [GREATEST; 2]),
        (u64::MAX, [GREATEST; 2]),
    ] {
        for (bytes, event, line) in lines {
            let mut desk = parts([0xaa; 210], [0, 0, 0, count]);
            for ordinal in ordinals {
                assert_eq!(events(&mut desk, bytes, 64), [(event, ordinal, 0, line.to_vec())]);
                assert_eq!(desk.state, [0, 0, 0, ordinal]);
            }
        }
    }
}

#[test]
fn a_feed_with_no_event_leaves_the_count() {
    for count in [0, 40, GREATEST, GREATEST + 1, u64::MAX] {
        for (bytes, held) in [(&b""[..], 0), (b"\n", 0), (b"\r\n\r\n", 0), (b"+C", 2), (b"\n>", 1), (&[b'a'; 300], 258)] {
            let (mut desk, mut text, mut told) = (parts([0xaa; 210], [0, 0, 0, count]), [7; 256], [9; 5]);
            assert_eq!(feed(&mut desk, bytes, &mut text, &mut told), 0);
            assert_eq!(told, [0, bytes.len() as u64, 0, 0, 0]);
            assert_eq!(desk.state, [held, 0, 0, count.min(GREATEST)]);
        }
    }
}
