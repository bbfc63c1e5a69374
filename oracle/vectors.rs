//! vectors FOLDER: writes the lists of vectors: numbers and UTF-8, each with the answer of Rust's own library, and texts that are handed out of a line, with the
//! published Rust's; see README.md.

#[allow(warnings)]
#[path = "../target/oracle/published/at_command/mod.rs"]
mod at_command;
#[allow(dead_code)]
mod boundary;
#[allow(dead_code)]
mod domain;
mod handed;
#[allow(dead_code)]
mod texts;
#[path = "../target/oracle/published/util.rs"]
mod util;

use std::fmt::Write;
use std::str::FromStr;
use texts::*;

struct List {
    seen: std::collections::HashSet<String>,
    text: String,
}

impl List {
    fn new() -> Self {
        List { seen: Default::default(), text: String::new() }
    }

    fn add(&mut self, kind: &str, bytes: &[u8], answer: &str) {
        let hex: String = bytes.iter().map(|byte| format!("{:02x}", byte)).collect();
        let vector = format!("{}\t{}\t{}\n", kind, hex, answer);
        if self.seen.insert(vector.clone()) {
            self.text += &vector;
        }
    }

    fn integers<T: FromStr + ToString>(&mut self, kind: &str, greatest: u128) {
        for text in integers(greatest) {
            let answer = text.parse::<T>().map_or("none".to_string(), |value| value.to_string());
            self.add(kind, text.as_bytes(), &answer);
        }
    }

    fn hexadecimals(&mut self, kind: &str, greatest: u128, read: impl Fn(&str) -> Option<u32>) {
        for text in hexadecimals(greatest) {
            let answer = read(&text).map_or("none".to_string(), |value| value.to_string());
            self.add(kind, text.as_bytes(), &answer);
        }
    }

    fn utf8(&mut self, bytes: &[u8]) {
        let answer = if std::str::from_utf8(bytes).is_ok() { "yes" } else { "no" };
        self.add("utf8", bytes, answer);
    }
}

fn float(text: &str) -> String {
    text.parse::<f32>().map_or("none".to_string(), |value| format!("{:08x}", value.to_bits()))
}

fn floats(list: &mut List) {
    for text in numerals() {
        assert!(desk_numeral(&text), "{}", text);
        assert_ne!(float(&text), "none");
        list.add("f32", text.as_bytes(), &float(&text));
    }
    for text in BAD_FLOATS {
        assert_eq!(float(text), "none", "{}", text);
        list.add("f32", text.as_bytes(), "none");
    }
}

/// The fixed list's lines for the readers whose texts are handed out, each CR at an end taken off.
fn handed_lines() -> Vec<(&'static str, Vec<u8>)> {
    let lines = boundary::lines();
    // the program that replays them has room for 4096 bytes
    let bare = lines.iter().map(|line| line.strip_suffix(b"\r").unwrap_or(line).to_vec()).filter(|line| line.len() <= 4096);
    let asked = bare.flat_map(|line| handed::KINDS.iter().filter(|kind| handed::concerns(kind, &line)).map(|&kind| (kind, line.clone())).collect::<Vec<_>>());
    // and a few of others, which each of these readers refuses
    let others = ["", "OK", "+COPS: ", "+CNTP", "+CMGR: 1", "+HTTPTOFS:", "490154203237518", "+CSQ: 31,99"];
    asked.chain(others.iter().flat_map(|other| handed::KINDS.iter().map(|&kind| (kind, other.as_bytes().to_vec())))).collect()
}

/// The inside of the domain; by rule are the rest.
fn handed(list: &mut List) {
    for (kind, line) in handed_lines() {
        if domain::line(&line).is_none() {
            list.add(kind, &line, &handed::theirs(kind, &line));
        }
    }
}

/// With other texts lent than the Rust's own two, `2` and `"64304"`, of which the second stands for a name that is not in the line.
const LENT: [(&str, &str); 8] = [
    ("+COPS: 0", "64304"),
    ("+COPS: 1,0", "64304"),
    ("+COPS: 4,,", "refused 3"),
    ("+COPS: 2,1,", ""),
    ("+COPS: 0,0,\"Tele2\"", "Tele2"),
    ("+COPS: 0,0,\"\"64304\"\",7", "64304"),
    ("+COPS: 3", "refused 3"),
    ("+CSQ: 1,1", "refused 3"),
];

/// Answered here by document 01's and 02's rules, and otherwise by the Rust: the fourth field is its answer, `none` where it has no such call.
fn by_rule() -> String {
    let mut out = String::new();
    let mut seen = std::collections::HashSet::new();
    for (kind, line) in handed_lines() {
        if let Some(outside) = domain::line(&line) {
            let hex: String = line.iter().map(|byte| format!("{:02x}", byte)).collect();
            let vector = format!("{}\t{}\t{}\t{}\n", kind, hex, handed::ours(&outside.ours), handed::theirs(kind, &line));
            if seen.insert(vector.clone()) {
                out += &vector;
            }
        }
    }
    for (line, name) in LENT {
        let hex: String = line.bytes().map(|byte| format!("{:02x}", byte)).collect();
        let ours = if name.starts_with("refused") { name.to_string() } else { handed::text(name.as_bytes()) };
        writeln!(out, "lent\t{}\t{}\tnone", hex, ours).unwrap();
    }
    for text in FLOATS_BY_RULE {
        assert!(!desk_numeral(text));
        assert_ne!(float(text), "none", "{}", text);
        let hex: String = text.bytes().map(|byte| format!("{:02x}", byte)).collect();
        writeln!(out, "f32\t{}\tnone\t{}", hex, float(text)).unwrap();
    }
    out
}

/// RFC 3629: its examples (sections 7 and 10), then both ends of every range of its grammar (section 4) and the bytes beside them.
fn utf8(list: &mut List) {
    let examples: [&[u8]; 8] = [
        b"",
        b"\x41\xe2\x89\xa2\xce\x91\x2e",
        b"\xed\x95\x9c\xea\xb5\xad\xec\x96\xb4",
        b"\xe6\x97\xa5\xe6\x9c\xac\xe8\xaa\x9e",
        b"\xef\xbb\xbf\xf0\xa3\x8e\xb4",
        b"\xc0\x80",
        b"\xed\xa1\x8c\xed\xbe\xb4",
        b"\x2f\xc0\xae\x2e\x2e\x2f",
    ];
    examples.iter().for_each(|example| list.utf8(example));
    let leads = [
        0x00, 0x7f, 0x80, 0xbf, 0xc0, 0xc1, 0xc2, 0xdf, 0xe0, 0xe1, 0xec, 0xed, 0xee, 0xef, 0xf0, 0xf1, 0xf3, 0xf4, 0xf5, 0xf7, 0xf8, 0xfb, 0xfc, 0xfd, 0xfe, 0xff,
    ];
    for lead in leads {
        list.utf8(&[lead]);
        list.utf8(&[b'a', lead, b'b']);
        // The edges of the second byte; behind a good one, those of the bytes that follow.
        let (first, last) = match lead {
            0xe0 => (0xa0, 0xbf),
            0xed => (0x80, 0x9f),
            0xf0 => (0x90, 0xbf),
            0xf4 => (0x80, 0x8f),
            _ => (0x80, 0xbf),
        };
        let length = match lead {
            0x00..=0xdf => 2,
            0xe0..=0xef => 3,
            _ => 4,
        };
        for second in [first - 1, first, last, last + 1] {
            let mut bytes = vec![lead, second, 0x80, 0xbf];
            bytes.truncate(length);
            list.utf8(&bytes);
            for at in 2..length {
                if (first..=last).contains(&second) && lead < 0xf5 {
                    list.utf8(&bytes[..at]);
                    for edge in [0x7f, 0x80, 0xbf, 0xc0] {
                        let mut beside = bytes.clone();
                        beside[at] = edge;
                        list.utf8(&beside);
                    }
                }
            }
        }
    }
    let bad: [&[u8]; 24] = [
        b"\xc0\xaf", b"\xe0\x80\xaf", b"\xf0\x80\x80\xaf", b"\xf8\x80\x80\x80\xaf", b"\xfc\x80\x80\x80\x80\xaf", b"\xc1\xbf", b"\xe0\x9f\xbf",
        b"\xf0\x8f\xbf\xbf", b"\xf8\x87\xbf\xbf\xbf", b"\xfc\x83\xbf\xbf\xbf\xbf", b"\xed\xad\xbf\xed\xb0\x80", b"\xed\xae\x80\xed\xbf\xbf",
        b"\xf8\x88\x80\x80\x80", b"\xfc\x84\x80\x80\x80\x80", b"\xfe\xfe\xff\xff", b"\x80\xbf", b"\x80\xbf\x80\xbf\x80\xbf", b"a\x80", b"\x80a",
        b"\xc3\xa9\x80", b"\xc3\xc3\xa9", b"\xe2\x82a\xac", b"\xf0\x9f\x93a", b"ok\xf0\x9f\x93",
    ];
    bad.iter().for_each(|bytes| list.utf8(bytes));
    for text in [
        "OK", "\0", "\u{7f}", "\u{e9}", "\u{20ac}", "\u{1f4f6}", "\u{d7ff}\u{e000}", "\u{fffd}", "\u{fffe}", "\u{ffff}", "\u{fdd0}", "\u{10fffe}", "a\u{e9}\u{20ac}\u{1f4f6}z",
        "\u{1f4f6}\u{20ac}\u{e9}a", "\u{e9}\u{e9}\u{e9}\u{e9}", "e\u{301}",
    ] {
        list.utf8(text.as_bytes());
        // Cut before its last byte and after its first.
        list.utf8(&text.as_bytes()[..text.len() - 1]);
        list.utf8(&text.as_bytes()[1..]);
    }
}

fn main() -> std::io::Result<()> {
    let folder = std::env::args().nth(1).expect("usage: vectors FOLDER");
    let mut list = List::new();
    list.integers::<u8>("u8", u8::MAX as u128);
    list.integers::<u16>("u16", u16::MAX as u128);
    list.integers::<u32>("u32", u32::MAX as u128);
    list.integers::<u64>("u64", u64::MAX as u128);
    list.integers::<i32>("i32", i32::MAX as u128);
    list.hexadecimals("x16", u16::MAX as u128, |text| u16::from_str_radix(text, 16).ok().map(u32::from));
    list.hexadecimals("x32", u32::MAX as u128, |text| u32::from_str_radix(text, 16).ok());
    floats(&mut list);
    utf8(&mut list);
    std::panic::set_hook(Box::new(|_| {}));
    handed(&mut list);
    let count = list.text.lines().count();
    let rule = by_rule();
    println!("vectors {}, by rule {}", count, rule.lines().count());
    std::fs::write(format!("{}/vectors.txt", folder), list.text)?;
    std::fs::write(format!("{}/vectors-by-rule.txt", folder), rule)
}
