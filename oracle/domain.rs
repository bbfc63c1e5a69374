//! Document 01's domain of equality, as document 02 narrows it, told from the input alone. Outside of it: the entry of docs/DIFFERENCES.md, and what each side then says.

use crate::boundary::imei;
use crate::texts::desk_numeral;
use std::str::from_utf8;

pub const ENTRIES: [(&str, &str); 12] = [
    ("D1", "a line of more than 256 bytes"),
    ("D2", "a line that is not UTF-8"),
    ("D3", "an ICCID cut inside a character"),
    ("D4", "a +CMGR sender of more than 20 bytes"),
    ("D5", "a +CNTP time of more than 32 bytes"),
    ("D6", "a +UGNSINF line of more than 21 fields"),
    ("D7", "a float that is no desk numeral"),
    ("D8", "a request text that is too long"),
    ("D9", "a request text with a byte outside 32 to 126"),
    ("D19", "an operator number that is not five or six digits"),
    ("D20", "sixteen digits"),
    ("D21", "a fix whose date does not exist"),
];

/// `rust` is None where the entry leaves the Rust's answer open.
pub struct Outside {
    pub entry: &'static str,
    pub rust: Option<String>,
    pub ours: String,
}

fn outside(entry: &'static str, rust: Option<&str>, ours: &str) -> Option<Outside> {
    Some(Outside { entry, rust: rust.map(str::to_string), ours: ours.to_string() })
}

const STOPS: Option<&str> = Some("stopped");

/// `line` without its LF and the CR before it.
pub fn line(line: &[u8]) -> Option<Outside> {
    if line.len() > 256 {
        return outside("D1", None, "refused 1");
    }
    let line = match from_utf8(line) {
        Ok(line) => line,
        Err(_) => return outside("D2", Some("not utf8"), "refused 2"),
    };
    if iccid_cut_inside(line) {
        return outside("D3", STOPS, "refused 3");
    }
    if line.len() == 16 && line.bytes().all(|byte| byte.is_ascii_digit()) {
        return version_number(line);
    }
    if let Some(rest) = line.strip_prefix("+CMGR: ") {
        let fields: Vec<&str> = rest.split(',').collect();
        if fields.len() >= 3 && fields[1].trim_matches('"').len() > 20 {
            return outside("D4", STOPS, "refused 4");
        }
    }
    if let Some(rest) = line.strip_prefix("+CNTP: ") {
        let (code, time) = rest.split_at(rest.find(',').unwrap_or(rest.len()));
        if time.len() > 1 + 32 {
            let known = ["1", "61", "62", "63", "64", "65"].contains(&code);
            return outside("D5", STOPS, if known { "refused 4" } else { "refused 3" });
        }
    }
    if let Some(rest) = line.strip_prefix("+UGNSINF: ") {
        let fields: Vec<&str> = rest.split(',').collect();
        if fields.len() > 21 {
            return outside("D6", None, "refused 3");
        }
        if fields.len() == 21 && fields[0] == "1" && fields[1] == "1" {
            return fix(&fields);
        }
    }
    None
}

/// Latitude, longitude, altitude, hdop, pdop, vdop, speed and course, in the order of the answer; then its four counts.
const FLOATS: [usize; 8] = [3, 4, 5, 10, 11, 12, 6, 7];
const COUNTS: [usize; 4] = [14, 15, 16, 18];

/// The date must exist (document 02, CR 8), and is read before the floats. The Rust reads any; what it makes of a float that is no desk numeral is left open.
fn fix(fields: &[&str]) -> Option<Outside> {
    let plain = FLOATS.iter().all(|&at| fields[at].is_empty() || desk_numeral(fields[at]));
    if !date_exists(fields[2]) {
        let rust = unchecked(fields).unwrap_or("refused 3".to_string());
        return outside("D21", if plain { Some(&rust) } else { None }, "refused 13");
    }
    if plain { None } else { outside("D7", None, "refused 3") }
}

/// Fourteen digits, then nothing or a point and one or more digits. The fourteen are one number, taken apart from its end.
fn date_exists(field: &str) -> bool {
    let digits = |text: &str| !text.is_empty() && text.bytes().all(|byte| byte.is_ascii_digit());
    let (whole, fraction) = field.split_once('.').unwrap_or((field, "0"));
    if whole.len() != 14 || !digits(whole) || !digits(fraction) {
        return false;
    }
    let mut rest: u64 = whole.parse().unwrap();
    let mut pair = || {
        let last = rest % 100;
        rest /= 100;
        last
    };
    let (second, minute, hour, day, month) = (pair(), pair(), pair(), pair(), pair());
    let year = rest;
    let leap = year % 400 == 0 || year % 4 == 0 && year % 100 != 0;
    let days = match month {
        2 if leap => 29,
        2 => 28,
        4 | 6 | 9 | 11 => 30,
        1..=12 => 31,
        _ => 0,
    };
    (1980..=2099).contains(&year) && (1..=days).contains(&day) && hour < 24 && minute < 60 && second < 60
}

/// What the Rust prints for a fix, whatever its date: six numbers in their places, signs and all, or six zeros. None: it refuses the line.
fn unchecked(fields: &[&str]) -> Option<String> {
    let places = [(0, 4), (4, 6), (6, 8), (8, 10), (10, 12), (12, 14)];
    let numbers: Option<Vec<u16>> = places.iter().map(|&(from, to)| fields[2].get(from..to)?.parse().ok()).collect();
    let mut words = vec!["GnssReport Fix".to_string()];
    words.extend(numbers.unwrap_or(vec![0; 6]).iter().map(u16::to_string));
    for at in FLOATS {
        let value: f32 = if at > 5 && fields[at].is_empty() { 0.0 } else { fields[at].parse().ok()? };
        words.push(format!("{:08x}", value.to_bits()));
    }
    for at in COUNTS {
        let count: u32 = if fields[at].is_empty() { 0 } else { fields[at].parse().ok()? };
        words.push(count.to_string());
    }
    Some(words.join(" "))
}

/// Sixteen digits (document 02, CR 3). The Rust takes the last of them for a check digit.
fn version_number(line: &str) -> Option<Outside> {
    let rust = if line == imei(&line[..15]) { format!("Imei \"{}\"", line) } else { "refused 3".to_string() };
    outside("D20", Some(&rust), &format!("Imei version \"{}\"", line))
}

/// Bytes 2, 4 and 6 are where the Rust cuts, each only if what stands before it was good.
fn iccid_cut_inside(line: &str) -> bool {
    let line = line.trim_end_matches(['f', 'F']);
    if line.len() != 19 && line.len() != 20 {
        return false;
    }
    if !line.is_char_boundary(2) {
        return true;
    }
    if !line.starts_with("89") {
        return false;
    }
    if !line.is_char_boundary(4) {
        return true;
    }
    line[2..4].parse::<u8>().is_ok() && !line.is_char_boundary(6)
}

pub fn request(line: &[u8]) -> Option<Outside> {
    let fields: Vec<&[u8]> = line.split(|&byte| byte == b'\t').collect();
    let texts: Vec<(&[u8], usize)> = match (fields[0], fields.len()) {
        (b"SetManualOperator", 2) => return operator(fields[1]),
        (b"SynchronizeNetworkTime", 4) if reads::<u16>(fields[2]) && reads::<u8>(fields[3]) => vec![(fields[1], 64)],
        (b"DownloadToFileSystem", 3) => vec![(fields[1], 64), (fields[2], 32)],
        _ => return None,
    };
    let utf8 = texts.iter().all(|(text, _)| from_utf8(text).is_ok());
    if texts.iter().any(|(text, most)| text.len() > *most) {
        return outside("D8", if utf8 { STOPS } else { Some("not utf8") }, "refused 5");
    }
    if texts.iter().any(|(text, _)| text.iter().any(|byte| !(32..=126).contains(byte))) {
        return outside("D9", if utf8 { None } else { Some("not utf8") }, "refused 6");
    }
    None
}

/// Five or six digits (document 02, CR 2). The Rust writes any plmn that fits, and escapes nothing.
fn operator(plmn: &[u8]) -> Option<Outside> {
    let text = from_utf8(plmn).ok();
    if plmn.len() > 6 {
        return outside("D8", text.map_or(Some("not utf8"), |_| STOPS), "refused 5");
    }
    if plmn.len() >= 5 && plmn.iter().all(u8::is_ascii_digit) {
        return None;
    }
    let written = text.map_or("not utf8".to_string(), |text| format!("AT+COPS=1,2,\"{}\"\r", text));
    outside("D19", Some(&written), "refused 12")
}

fn reads<T: std::str::FromStr>(text: &[u8]) -> bool {
    from_utf8(text).map_or(false, |text| text.parse::<T>().is_ok())
}
