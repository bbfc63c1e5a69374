//! Random lines and requests: good ones of every reader and writer in many shapes, then damaged copies, noise and long ones. Also what a modem sends on a
//! busy cell, for the benchmark alone.

use crate::boundary;
use crate::texts::*;

const CHARACTERS: &[&str] = &["\u{e9}", "\u{df}", "\u{663}", "\u{20ac}", "\u{ff11}", "\u{201c}", "\u{feff}", "\u{1f4f6}", "\u{10ffff}", "\u{80}", "\u{800}", "\u{2028}"];

/// `fixed` is the list of boundary.rs, whose damaged copies are drawn too.
pub fn line(rng: &mut Rng, fixed: &[Vec<u8>]) -> Vec<u8> {
    let kind = rng.below(100);
    let mut line = match kind {
        0..=84 => reader_line(rng).into_bytes(),
        85..=94 => fixed[rng.below(fixed.len())].clone(),
        95..=96 => noise(rng).into_bytes(),
        97 => (0..rng.below(40)).map(|_| rng.next() as u8).collect(),
        98 => long(rng).into_bytes(),
        _ => spliced(rng),
    };
    if rng.percent(if (85..=94).contains(&kind) { 90 } else { 25 }) {
        for _ in 0..rng.between(1, 3) {
            damage(rng, &mut line);
        }
    }
    if rng.percent(2) {
        pad(rng, &mut line);
    }
    if rng.percent(10) {
        line.push(b'\r');
    }
    line.retain(|&byte| byte != b'\n');
    line
}

fn reader_line(rng: &mut Rng) -> String {
    match rng.below(100) {
        0..=6 => finals(rng),
        7..=13 => format!("+CSQ: {},{}", rssi(rng), ber(rng)),
        14..=21 => iccid(rng),
        22..=28 => imei(rng),
        29..=34 => cpsi(rng),
        35..=42 => cops(rng),
        43..=49 => cntp(rng),
        50..=55 => httptofs(rng),
        56..=57 => format!("+CMGF: {}", rng.pick(&["0", "1", "1", "2", "01", "", "+1", " 1", "1,0"])),
        58..=65 => cmgr(rng),
        66..=80 => registration(rng),
        81..=97 => ugnsinf(rng),
        _ => left_out(rng),
    }
}

/// A number of a field read to `bits` bits, mostly good, of any length and sign.
fn integer(rng: &mut Rng, bits: u32) -> String {
    let greatest = if bits == 64 { u64::MAX } else { (1 << bits) - 1 };
    match rng.below(20) {
        0 => rng.pick(ODD_INTEGERS).to_string(),
        1 => {
            let texts = limit_integers(greatest as u128);
            texts[rng.below(texts.len())].clone()
        }
        2 => {
            let count = rng.between(1, 22);
            rng.digits(count)
        }
        3 => format!("+{}", rng.next() & greatest),
        4 => format!("{}{}", "0".repeat(rng.below(6)), rng.next() & greatest),
        5 => format!("-{}", rng.next() & greatest),
        6..=9 => rng.below(10).to_string(),
        10..=12 => rng.below(300).to_string(),
        _ => ((rng.next() & greatest) >> rng.below(bits as usize)).to_string(),
    }
}

fn quoted(rng: &mut Rng, text: &str) -> String {
    match rng.below(12) {
        0..=4 => format!("\"{}\"", text),
        5..=7 => text.to_string(),
        8 => format!("{}{}{}", "\"".repeat(rng.below(4)), text, "\"".repeat(rng.below(4))),
        9 => format!("'{}'", text),
        10 => format!("\"{}\"{}\"", text, text),
        _ => format!(" \"{}\" ", text),
    }
}

fn word(rng: &mut Rng, length: usize) -> String {
    let mut out = String::new();
    while out.len() < length {
        match rng.below(30) {
            0 if out.len() + 4 <= length => out.push_str(rng.pick(CHARACTERS)),
            1 => out.push('"'),
            2 => out.push(' '),
            3 => out.push(rng.pick(&["\\", ":", ";", "'", "/", "+", "\0", "\r", "\t"]).chars().next().unwrap()),
            _ => out.push((b' ' + 1 + rng.below(94) as u8) as char),
        }
    }
    out.replace(',', ".")
}

fn finals(rng: &mut Rng) -> String {
    match rng.below(8) {
        0 => rng.pick(&["OK", "SHUT OK", "ERROR", "> ", "OK "]).to_string(),
        1..=2 => format!("+CME ERROR: {}", integer(rng, 32)),
        3..=4 => format!("+CMS ERROR: {}", integer(rng, 32)),
        5 => format!("{}, CLOSE OK", rng.below(8)),
        _ => format!("{}, CLOSE OK", integer(rng, 64)),
    }
}

fn rssi(rng: &mut Rng) -> String {
    match rng.below(10) {
        0 => integer(rng, 8),
        1 => format!("{:03}", rng.below(34)),
        2 => "99".to_string(),
        _ => rng.below(34).to_string(),
    }
}

fn ber(rng: &mut Rng) -> String {
    match rng.below(10) {
        0 => integer(rng, 8),
        1..=3 => "99".to_string(),
        _ => rng.below(9).to_string(),
    }
}

fn iccid(rng: &mut Rng) -> String {
    let count = if rng.percent(80) { rng.between(17, 18) } else { rng.between(14, 20) };
    let mut body = rng.digits(count);
    if rng.percent(15) {
        let at = rng.below(count);
        body.replace_range(at..at + 1, rng.pick(&["+", "-", "f", "a", " "]));
    }
    if rng.percent(15) {
        let character = rng.pick(CHARACTERS);
        let at = rng.below(6);
        body.replace_range(at..at + character.len(), character);
    }
    let start = if rng.percent(92) { "89" } else { rng.pick(&["88", "98", "8", "+9", "8\u{e9}"]) };
    format!("{}{}{}", start, body, rng.pick(&["", "", "", "f", "F", "ff", "fF", "FFF"]))
}

fn imei(rng: &mut Rng) -> String {
    let count = if rng.percent(90) { rng.between(14, 15) } else { rng.between(10, 18) };
    let digits = rng.digits(count);
    // sixteen digits are good with any last one, so that both of the Rust's answers to them are drawn
    if rng.percent(if count == 15 { 40 } else { 80 }) {
        return boundary::imei(&digits);
    }
    format!("{}{}", digits, rng.below(10))
}

fn cpsi(rng: &mut Rng) -> String {
    let system = if rng.percent(88) { rng.pick(&["NO SERVICE", "GSM", "LTE CAT-M1", "LTE NB-IOT"]) } else { rng.pick(&["LTE", "", "gsm", "GSM ", "NO SERVIC"]) };
    let operation = if rng.percent(88) {
        rng.pick(&["Online", "Offline", "Factory Test Mode", "Reset", "Low Power Mode"])
    } else {
        rng.pick(&["online", "", "On line", "Low Power", "\"Online\""])
    };
    let mut out = format!("+CPSI: {},{}", system, operation);
    let more = if rng.percent(75) { 7 } else { rng.below(14) };
    for _ in 0..more {
        let length = rng.below(9);
        out = format!("{},{}", out, word(rng, length));
    }
    out
}

fn cops(rng: &mut Rng) -> String {
    let mode = if rng.percent(88) { rng.pick(&["0", "1", "2", "4"]) } else { rng.pick(&["3", "5", "00", "", "+0", "a"]) };
    let mut out = format!("+COPS: {}", mode);
    if rng.percent(10) {
        return out;
    }
    let format = if rng.percent(90) { rng.pick(&["0", "1", "2"]) } else { rng.pick(&["3", "00", "", "+1"]) };
    out = format!("{},{}", out, format);
    if rng.percent(10) {
        return out;
    }
    let length = if rng.percent(90) { rng.below(24) } else { rng.below(240) };
    let name = word(rng, length);
    out = format!("{},{}", out, quoted(rng, &name));
    if rng.percent(60) {
        out = format!("{},{}", out, rng.pick(&["0", "7", "9", "7,8", "", "\""]));
    }
    out
}

fn cntp(rng: &mut Rng) -> String {
    let code = if rng.percent(88) { rng.pick(&["1", "61", "62", "63", "64", "65"]) } else { rng.pick(&["0", "60", "66", "01", "", "+1", "1 "]) };
    if rng.percent(15) {
        return format!("+CNTP: {}", code);
    }
    let time = match rng.below(4) {
        0 => "\"24/01/01,00:00:00+00\"".to_string(),
        1 => {
            let length = rng.between(30, 34);
            word(rng, length)
        }
        2 => {
            let length = rng.below(32);
            word(rng, length)
        }
        _ => format!("{}/{}/{},{}:{}:{}+{}", rng.below(99), rng.below(13), rng.below(32), rng.below(24), rng.below(60), rng.below(60), rng.below(96)),
    };
    format!("+CNTP: {},{}", code, time)
}

fn httptofs(rng: &mut Rng) -> String {
    let code = match rng.below(10) {
        0..=6 => rng.pick(&["100", "200", "206", "400", "404", "408", "500", "600", "601", "602", "603", "604", "620"]).to_string(),
        7 => rng.below(1000).to_string(),
        8 => rng.pick(&["0200", "", "+200", "200 "]).to_string(),
        _ => integer(rng, 16),
    };
    if rng.percent(15) {
        return format!("+HTTPTOFS: {}", code);
    }
    format!("+HTTPTOFS: {},{}", code, integer(rng, 64))
}

fn cmgr(rng: &mut Rng) -> String {
    let length = if rng.percent(70) { rng.below(21) } else { rng.between(18, 24) };
    let sender = word(rng, length);
    let status = rng.pick(&["\"REC UNREAD\"", "\"REC READ\"", "0", "", "1"]);
    let tail = rng.pick(&[",", ",\"\",\"24/01/01,00:00:00+00\"", ",x", ",,,", ""]);
    format!("+CMGR: {},{}{}", status, quoted(rng, &sender), tail)
}

fn registration(rng: &mut Rng) -> String {
    let name = rng.pick(&["+CREG", "+CGREG", "+CEREG"]);
    let count = if rng.percent(85) { *rng.pick(&[&1, &2, &4, &5, &5, &8]) } else { rng.between(1, 12) };
    let skipped = count == 2 || count == 5 || count == 8;
    let mut fields = Vec::new();
    if skipped != rng.percent(5) {
        fields.push(rng.pick(&["0", "1", "2", "4", "x", ""]).to_string());
    }
    fields.push(if rng.percent(80) { rng.below(7).to_string() } else { integer(rng, 31) });
    for width in [4, 8] {
        let number = hexadecimal(rng, width);
        fields.push(quoted(rng, &number));
    }
    while fields.len() < count {
        let length = rng.below(5);
        fields.push(word(rng, length));
    }
    format!("{}: {}", name, fields[..count].join(","))
}

fn hexadecimal(rng: &mut Rng, width: usize) -> String {
    let value = rng.next() >> (64 - 4 * width) >> rng.below(4 * width);
    match rng.below(12) {
        0 => format!("{:x}", rng.next() >> rng.below(64)),
        1 => format!("{:032X}", value),
        2 => format!("+{:x}", value),
        3 => rng.pick(&["", "g", "-1", "+", "0x1", "\u{e9}", " 1", "1 "]).to_string(),
        4..=7 => format!("{:x}", value),
        _ => format!("{:0width$X}", value, width = width),
    }
}

pub fn numeral(rng: &mut Rng) -> String {
    let sign = rng.pick(&["", "", "", "-", "+"]);
    if rng.percent(15) {
        return format!("{}{}", sign, near_tie(rng));
    }
    if rng.percent(2) {
        return format!("{}{}", sign, twice_rounded(rng));
    }
    let count = rng.between(1, 15);
    let mut digits = if rng.percent(10) { rng.pick(&["0", "9", "1"]).repeat(count) } else { rng.digits(count) };
    if rng.percent(75) {
        digits.insert(rng.below(count + 1), '.');
    }
    format!("{}{}", sign, digits)
}

fn ugnsinf(rng: &mut Rng) -> String {
    let mut fields = boundary::gnss_fields();
    fields[0] = if rng.percent(90) { "1" } else { rng.pick(&["0", "", "2", "01", "+1"]) }.to_string();
    fields[1] = if rng.percent(85) { "1" } else { rng.pick(&["0", "", "2", "01", "+1"]) }.to_string();
    fields[2] = date(rng);
    for at in [3, 4, 5, 6, 7, 10, 11, 12] {
        fields[at] = if at > 5 && rng.percent(15) { String::new() } else { numeral(rng) };
    }
    for at in [14, 15, 16, 18] {
        fields[at] = match rng.below(20) {
            0 => integer(rng, 32),
            1..=3 => String::new(),
            _ => rng.below(100).to_string(),
        };
    }
    for at in [8, 9, 13, 17, 19, 20] {
        let length = rng.below(4);
        fields[at] = word(rng, length);
    }
    if rng.percent(8) {
        let at = *rng.pick(&[&3, &4, &5, &6, &7, &10, &11, &12]);
        let texts = if rng.percent(60) { FLOATS_BY_RULE } else { BAD_FLOATS };
        fields[at] = rng.pick(texts).to_string();
    }
    if rng.percent(3) {
        let at = *rng.pick(&[&3, &4, &5, &6, &7, &10, &11, &12]);
        let exponent = rng.below(60) as i32 - 30;
        fields[at] = format!("{}e{}", numeral(rng), exponent);
    }
    if rng.percent(6) {
        let count = rng.between(18, 24);
        fields.resize(count, rng.pick(&["", "1", "x"]).to_string());
    }
    format!("+UGNSINF: {}", fields.join(","))
}

/// Mostly one that exists, of any day from 1980 to 2099. Some are one step beyond in a part, some have a day that the month lacks, some are damaged.
fn date(rng: &mut Rng) -> String {
    let beyond = if rng.percent(15) { 1 } else { 0 };
    let mut date = format!(
        "{:04}{:02}{:02}{:02}{:02}{:02}",
        rng.between(1980 - beyond, 2099 + beyond),
        rng.between(1 - beyond, 12 + beyond),
        rng.between(1 - beyond, 31 + beyond),
        rng.below(24 + beyond),
        rng.below(60 + beyond),
        rng.below(60 + beyond)
    );
    if rng.percent(6) {
        date = rng.digits(14);
    }
    date += &match rng.below(10) {
        0..=3 => ".000".to_string(),
        4..=6 => {
            let count = rng.between(1, 12);
            format!(".{}", rng.digits(count))
        }
        _ => String::new(),
    };
    if rng.percent(2) {
        date += rng.pick(&[".", "0", "x", "Z", " ", ".5", "+", ":"]);
    }
    if rng.percent(8) {
        let at = rng.below(date.len());
        let text = if rng.percent(50) { rng.pick(CHARACTERS) } else { rng.pick(&["+", "-", " ", "x", "", "/", ":", ".", "7"]) };
        date.replace_range(at..at + 1, text);
    }
    if rng.percent(3) {
        let end = rng.below(date.len());
        date = date.chars().take(end).collect();
    }
    date
}

fn left_out(rng: &mut Rng) -> String {
    let number = integer(rng, 16);
    match rng.below(6) {
        0 => format!("+CCLK: {}", number),
        1 => format!("+CMGS: {}", number),
        2 => format!("+CGNAPN: 1,\"{}\"", number),
        3 => format!("{}, {}", number, rng.pick(&["CLOSED", "SEND OK", "CONNECT OK", "ALREADY CONNECT"])),
        4 => rng.pick(&["RDY", "+CPIN: READY", "+CFUN: 1", "SMS Ready", "AT+CSQ", "AT"]).to_string(),
        _ => format!("+{}: {}", rng.pick(&["CSQN", "CMG", "CREGX", "CG", "C", "UGNSIN", "CCID"]), number),
    }
}

fn noise(rng: &mut Rng) -> String {
    let mut out = String::new();
    for _ in 0..rng.below(30) {
        match rng.below(3) {
            0 => out.push_str(rng.pick(CHARACTERS)),
            1 => out.push_str(rng.pick(&["+", ":", " ", ",", "\"", "0", "1", "OK", ": ", "89", "> "])),
            _ => out.push(rng.below(128) as u8 as char),
        }
    }
    out
}

/// Around 256 bytes, now and then far beyond.
fn long(rng: &mut Rng) -> String {
    let start = rng.pick(&["+COPS: 0,0,", "+COPS: 1,2,x,", "+HTTPTOFS: 200,", "+CREG: 1,", "+CEREG: 5,", "+CMGR: a,b,", "+CPSI: GSM,Online,,,,,,,", "+CNTP: 1,", ""]);
    let length = match rng.below(10) {
        0 => rng.between(300, 3000),
        1..=3 => rng.between(200, 300),
        _ => rng.between(254, 258),
    };
    let text = word(rng, length - start.len());
    let mut out = format!("{}{}", start, text);
    while out.len() > length {
        out.pop();
    }
    out
}

fn spliced(rng: &mut Rng) -> Vec<u8> {
    let (mut one, other) = (reader_line(rng).into_bytes(), reader_line(rng).into_bytes());
    let (cut, from) = (rng.below(one.len() + 1), rng.below(other.len() + 1));
    one.truncate(cut);
    one.extend(&other[from..]);
    one
}

fn damage(rng: &mut Rng, line: &mut Vec<u8>) {
    if line.is_empty() {
        line.push(rng.next() as u8);
        return;
    }
    let at = rng.below(line.len());
    match rng.below(12) {
        0 => line[at] ^= 1 << rng.below(8),
        1 => {
            line.remove(at);
        }
        2 => line.insert(at, b' ' + rng.below(95) as u8),
        3 => {
            let other = rng.below(line.len());
            line.swap(at, other);
        }
        4 => line.truncate(at),
        5 => line.insert(at, rng.pick(&[",", "\"", "+", "-", "0", ".", ":", " ", "f"]).as_bytes()[0]),
        6 => {
            line.splice(at..at, rng.pick(CHARACTERS).bytes());
        }
        7 => {
            line.splice(at..at + 1, rng.pick(CHARACTERS).bytes());
        }
        8 => {
            let end = rng.between(at, line.len());
            let piece = line[at..end].to_vec();
            line.splice(at..at, piece);
        }
        9 => {
            line.drain(..at.min(3));
        }
        10 => line[at] = rng.pick(&["0", "1", "9", ",", "\"", "+", "F"]).as_bytes()[0],
        _ => line[at] = line[at].to_ascii_lowercase(),
    }
}

/// Lengthens a line to the edge at 256 bytes.
fn pad(rng: &mut Rng, line: &mut Vec<u8>) {
    let length = rng.between(255, 258);
    let byte = rng.pick(&["x", "0", "f", " ", ",", "\""]).as_bytes()[0];
    if line.len() < length {
        line.resize(length, byte);
    }
}

/// What a modem sends on a busy cell in so many lines: a position each second, with five to nine other lines behind it, all of usual shapes.
pub fn busy(rng: &mut Rng, count: usize) -> Vec<String> {
    let mut lines = Vec::new();
    for second in 0.. {
        lines.push(position(rng, second));
        for _ in 0..rng.between(5, 9) {
            lines.push(between_positions(rng));
        }
        if lines.len() >= count {
            break;
        }
    }
    lines.truncate(count);
    lines
}

/// One in twenty has no fix yet.
fn position(rng: &mut Rng, second: usize) -> String {
    let (hour, minute) = (second / 3600 % 24, second / 60 % 60);
    let time = format!("20261116{:02}{:02}{:02}.000", hour, minute, second % 60);
    let in_view = rng.between(6, 14);
    if rng.percent(5) {
        return format!("+UGNSINF: 1,0,{},,,,0.00,0.0,0,,,,,,{},,,,,,", time, in_view);
    }
    let (speed, course) = (rng.below(200), rng.below(3600));
    let dop = rng.between(7, 19);
    format!(
        "+UGNSINF: 1,1,{},55.{:06},12.{:06},{}.{}00,{}.{:02},{}.{},1,,{}.{},{}.{},{}.{},,{},{},{},,{},,",
        time,
        rng.between(676_000, 676_999),
        rng.between(568_000, 568_999),
        rng.between(5, 60),
        rng.below(10),
        speed / 100,
        speed % 100,
        course / 10,
        course % 10,
        dop / 10,
        dop % 10,
        (dop + 4) / 10,
        (dop + 4) % 10,
        (dop - 1) / 10,
        (dop - 1) % 10,
        in_view,
        rng.between(4, 11),
        rng.below(5),
        rng.between(30, 48)
    )
}

fn between_positions(rng: &mut Rng) -> String {
    match rng.below(100) {
        0..=54 => registered(rng),
        55..=74 => format!("+CSQ: {},{}", rng.between(8, 31), if rng.percent(80) { 99 } else { rng.below(8) }),
        75..=95 => "OK".to_string(),
        96..=97 => rng.pick(&["+COPS: 0,0,\"TDC\",7", "+COPS: 0,2,\"23801\",7", "+COPS: 1,0,\"Telia DK\",9", "+COPS: 0"]).to_string(),
        _ => format!(
            "+CPSI: LTE CAT-M1,Online,238-01,0x{:04X},{},{},EUTRAN-BAND20,6300,3,3,-{},-{},-{},{}",
            rng.below(1 << 16),
            rng.below(1 << 28),
            rng.below(504),
            rng.between(8, 19),
            rng.between(80, 120),
            rng.between(50, 95),
            rng.between(5, 20)
        ),
    }
}

/// Mostly at home; the status alone, told anew or asked for, or the cell behind it.
fn registered(rng: &mut Rng) -> String {
    let name = rng.pick(&["+CREG", "+CGREG", "+CEREG"]);
    let status = rng.pick(&["1", "1", "1", "1", "5", "5", "2", "0"]);
    let cell = format!("\"{:04X}\",\"{:08X}\",{}", rng.below(1 << 16), rng.below(1 << 28), rng.pick(&["7", "7", "9", "0"]));
    match rng.below(10) {
        0..=3 => format!("{}: {}", name, status),
        4 => format!("{}: 0,{}", name, status),
        5..=7 => format!("{}: {},{}", name, status, cell),
        _ => format!("{}: 2,{},{}", name, status, cell),
    }
}

pub fn request(rng: &mut Rng) -> Vec<u8> {
    let mut fields: Vec<Vec<u8>> = match rng.below(20) {
        0 => vec![name(rng)],
        1..=4 => vec![b"SetManualOperator".to_vec(), operator(rng)],
        5..=9 => vec![b"SynchronizeNetworkTime".to_vec(), text(rng, 64), count(rng, 16), count(rng, 8)],
        10..=15 => vec![b"DownloadToFileSystem".to_vec(), text(rng, 64), text(rng, 32)],
        16 => vec![b"SetSmsMessageFormat".to_vec(), rng.pick(&["Pdu", "Text", "Pdu", "Text", "text", "0", "1", ""]).as_bytes().to_vec()],
        17..=18 => vec![b"ReadSms".to_vec(), count(rng, 8)],
        _ => vec![name(rng), text(rng, 6)],
    };
    if rng.percent(3) {
        fields.pop();
    }
    if rng.percent(3) {
        fields.push(text(rng, 6));
    }
    if rng.percent(2) && !fields.is_empty() {
        damage(rng, &mut fields[0]);
    }
    let mut line = fields.join(&b'\t');
    line.retain(|&byte| byte != b'\n');
    line
}

fn name(rng: &mut Rng) -> Vec<u8> {
    let names = ["GetSignalQuality", "ShowIccid", "GetImei", "GetOperatorInfo", "SetAutomaticOperator", "GetSystemInfo", "Execute", "GetSmsMessageFormat"];
    rng.pick(&names).as_bytes().to_vec()
}

fn count(rng: &mut Rng, bits: u32) -> Vec<u8> {
    if rng.percent(60) {
        return (rng.next() & ((1 << bits) - 1)).to_string().into_bytes();
    }
    integer(rng, bits).into_bytes()
}

/// Mostly five or six digits, some of them damaged.
fn operator(rng: &mut Rng) -> Vec<u8> {
    if rng.percent(20) {
        return text(rng, 6);
    }
    let length = if rng.percent(80) { rng.between(5, 6) } else { rng.below(9) };
    let mut plmn = rng.digits(length).into_bytes();
    if rng.percent(25) {
        damage(rng, &mut plmn);
    }
    plmn
}

/// Mostly printable and within `most` bytes.
fn text(rng: &mut Rng, most: usize) -> Vec<u8> {
    let length = match rng.below(10) {
        0 => 0,
        1..=2 => most,
        3 => rng.between(most - 1, most + 1),
        4 => rng.between(most, 2 * most),
        _ => rng.below(most + 1),
    };
    let all_marks = rng.percent(10);
    let mut out: Vec<u8> = (0..length)
        .map(|_| match rng.below(10) {
            0 => b'"',
            1 => b'\\',
            _ if all_marks => *rng.pick(&[&b'"', &b'\\']),
            _ => b' ' + rng.below(95) as u8,
        })
        .collect();
    if rng.percent(6) && !out.is_empty() {
        let at = rng.below(out.len());
        out[at] = rng.next() as u8;
    }
    if rng.percent(3) {
        let at = rng.below(out.len() + 1);
        out.splice(at..at, rng.pick(CHARACTERS).bytes());
    }
    out.retain(|byte| !b"\n\t".contains(byte));
    out
}
