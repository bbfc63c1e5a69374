//! The fixed list of lines and requests: every reader and writer, every value of every enum, every edge that documents 01 and 02 draw.

use crate::texts::*;

const CHARACTERS: [&str; 6] = ["\u{e9}", "\u{20ac}", "\u{1f4f6}", "\u{7ff}", "\u{ffff}", "\u{10ffff}"];
const QUOTED: &[&str] = &[
    "", "\"", "\"\"", "\"\"\"", "\"\"\"\"", "Tele2", "\"Tele2", "Tele2\"", "\"Tele2\"", "\"\"Tele2\"\"", "\"\"\"Tele2\"", "\"Tele2\"\"\"", "\"Te\"le2\"",
    "Te\"le2", "'Tele2'", "\u{201c}Tele2\u{201d}", " \"Tele2\"", "\"Tele2\" ", "\" Tele2 \"", "\\\"Tele2\\\"", "\"\u{e5}\u{e4}\u{f6}\"", "\"\u{1f4f6}\"",
    "`Tele2`", "\" \"", "\"\0\"", "\"\r", "\u{ff02}Tele2\u{ff02}", "\"a\"b\"c\"",
];

/// The 21 fields of a good +UGNSINF line.
pub fn gnss_fields() -> Vec<String> {
    "1,1,20240102030405.000,59.330211,18.068581,44.500,0.15,359.9,1,,1.2,1.5,0.9,,11,7,3,,42,,".split(',').map(str::to_string).collect()
}

fn gnss(changes: &[(usize, &str)]) -> String {
    let mut fields = gnss_fields();
    for (at, text) in changes {
        fields[*at] = text.to_string();
    }
    format!("+UGNSINF: {}", fields.join(","))
}

/// The digits with the check digit that the Rust wants behind them: for fourteen, that of TS 23.003, annex B.
pub fn imei(digits: &str) -> String {
    let mut sum = 0;
    for (place, digit) in digits.bytes().enumerate() {
        let once = (digit - b'0') as u32 * (1 + place as u32 % 2);
        sum += once / 10 + once % 10;
    }
    format!("{}{}", digits, (10 - sum % 10) % 10)
}

pub fn lines() -> Vec<Vec<u8>> {
    let mut out = Vec::new();
    named(&mut out);
    finals(&mut out);
    csq(&mut out);
    iccid(&mut out);
    imeis(&mut out);
    cpsi(&mut out);
    cops(&mut out);
    cntp(&mut out);
    httptofs(&mut out);
    sms(&mut out);
    registration(&mut out);
    ugnsinf(&mut out);
    lengths(&mut out);
    left_out(&mut out);
    let mut out: Vec<Vec<u8>> = out.into_iter().map(String::into_bytes).collect();
    ends(&mut out);
    not_utf8(&mut out);
    once(out)
}

/// Without the repetitions.
fn once(list: Vec<Vec<u8>>) -> Vec<Vec<u8>> {
    let mut seen = std::collections::HashSet::new();
    list.into_iter().filter(|item| seen.insert(item.clone())).collect()
}

/// The lines that document 01 names.
fn named(out: &mut Vec<String>) {
    for line in [
        "+CSQ: 0,99", "+CSQ: 31,99", "+CSQ: 32,0", "+CEREG: 1,", "+CEREG: 2,+5", "+CGREG: 1,2,3", "+CGREG: 2,1,\"00A5\",\"01B2\",7,a,b,c",
        "+CREG: 2,1,\"00A5\",\"01B2\",7,a,b,c", "+HTTPTOFS: 200,x", "490154203237518", "490154203237517", "4901542032375180", "+CEREG: 5", "OK", "",
        "8\u{e9}1111111111111111", "+COPS: 0",
    ] {
        out.push(line.to_string());
    }
    out.push(format!("+UGNSINF: 0{}", ",".repeat(20)));
    out.push(format!("+UGNSINF: 0{}", ",".repeat(19)));
}

fn finals(out: &mut Vec<String>) {
    for line in [
        "ok", "Ok", "OK ", " OK", "OKK", "O", "K", "SHUT OK", "SHUT  OK", "SHUTOK", "SHUT OK ", "shut ok", "ERROR", "ERROR ", " ERROR", "ERRO", "error",
        "ERROR: 5", "+CME ERROR", "+CME ERROR:", "+CME ERROR:5", "+CME ERROR : 5", "+cme error: 5", " +CME ERROR: 5", "+CMX ERROR: 5", "+CME ERROR:  5",
        "> ", ">", ">  ", "> x", " > ", "> \u{e9}", ", CLOSE OK", "5, CLOSE OK", "5,CLOSE OK", "5, CLOSE OK ", "5, close ok", "5 , CLOSE OK",
        "5, CLOSE", "CLOSE OK", "5, CLOSE OK, CLOSE OK", "+COPS: 0,0,x, CLOSE OK", "+5, CLOSE OK", "OK\0", "\u{feff}OK",
    ] {
        out.push(line.to_string());
    }
    for number in integers(u32::MAX as u128) {
        out.push(format!("+CME ERROR: {}", number));
        out.push(format!("+CMS ERROR: {}", number));
    }
    for number in integers(u64::MAX as u128) {
        out.push(format!("{}, CLOSE OK", number));
    }
    for number in ["4294967295", "4294967296", "30", "500"] {
        out.push(format!("{}, CLOSE OK", number));
    }
}

fn csq(out: &mut Vec<String>) {
    for rssi in (0..=33).chain([97, 98, 99, 100, 101, 254, 255, 256]) {
        for ber in [0, 1, 2, 3, 4, 5, 6, 7, 99] {
            out.push(format!("+CSQ: {},{}", rssi, ber));
        }
    }
    for ber in [8, 9, 10, 98, 100, 255, 256] {
        out.push(format!("+CSQ: 20,{}", ber));
    }
    for number in integers(u8::MAX as u128) {
        out.push(format!("+CSQ: {},0", number));
        out.push(format!("+CSQ: 20,{}", number));
    }
    for rest in ["", "20", "20,", ",0", ",", "20,0,", "20,0,0", "20;0", "+5,+7", "031,007", "+00031,+00099", "20 ,0", "20, 0", "020,00", "\u{e9},0"] {
        out.push(format!("+CSQ: {}", rest));
    }
    for line in ["+CSQ:20,0", "+CSQ 20,0", "CSQ: 20,0", "+csq: 20,0", "+CSQ:  20,0", " +CSQ: 20,0", "+CSQ", "+CSQ:", "+CSQN: 20,0"] {
        out.push(line.to_string());
    }
}

fn iccid(out: &mut Vec<String>) {
    let digits = "8988280666001104843812";
    for length in 16..=22 {
        for tail in ["", "f", "F", "ff", "fF", "Fffff", "f ", " f"] {
            out.push(format!("{}{}", &digits[..length], tail));
        }
    }
    for line in [
        "8988280666001104843", "89882806660011048438", "8901260862291477114f", "8901260862291477114F", "8801260862291477114f", "9801260862291477114f",
        "89+1260862291477114f", "8901+60862291477114f", "8901260862291477114-", "890126+862291477114f", "89+1+2+0862291477114", "89-1260862291477114f",
        "890126-862291477114f", "89++260862291477114f", "89+a260862291477114f", "8999990000000000000f", "8999999999999999999f", "89999999999999999999",
        "8900000000000000", "8900000000000000000", "89000000000000000000", "89 1260862291477114f", "8901 60862291477114f", "890126 862291477114f", "f8901260862291477114",
        "8901260862f91477114f", "8901260862e291477114", "890126086229147711af", "+CCID: 8901260862291477114f", "8901260862291477114g", "fffffffffffffffffffff",
        "ffffffffffffffffffff", "f",
    ] {
        out.push(line.to_string());
    }
    // A character laid over each byte, in lines of 17 to 21 bytes and with filler behind.
    for character in CHARACTERS {
        for at in 0..=7 {
            let tail = 19 - at - character.len();
            out.push(format!("{}{}{}", &digits[..at], character, "1".repeat(tail)));
            out.push(format!("{}{}{}f", &digits[..at], character, "1".repeat(tail + 1)));
        }
        for length in [17, 18, 21] {
            out.push(format!("8{}{}", character, "1".repeat(length - 1 - character.len())));
        }
        out.push(format!("89a1{}{}", character, "1".repeat(15 - character.len())));
        out.push(format!("89a11{}{}", character, "1".repeat(14 - character.len())));
        out.push(format!("89011{}{}", character, "1".repeat(14 - character.len())));
        out.push(format!("89+11{}{}F", character, "1".repeat(14 - character.len())));
        out.push(format!("88011{}{}", character, "1".repeat(14 - character.len())));
    }
}

/// Fifteen digits and sixteen (document 02, CR 3), their neighbours 13, 14, 17 and 18 with every last digit; of both, one digit altered or left out, one byte spoiled.
fn imeis(out: &mut Vec<String>) {
    for base in ["49015420323751", "490154203237518", "35209900176148", "00000000000000", "000000000000000", "99999999999999", "999999999999999", "26053179311383", "260531793113837"] {
        for last in 0..=9 {
            out.push(format!("{}{}", base, last));
        }
    }
    for count in [13, 14, 17, 18] {
        for last in 0..=9 {
            out.push(format!("{}{}", &"490154203237518043"[..count - 1], last));
        }
    }
    for number in ["490154203237518", "4901542032375181"] {
        for at in 0..number.len() {
            let (front, rest) = number.split_at(at);
            let next = (rest.as_bytes()[0] - b'0' + 1) % 10;
            out.push(format!("{}{}{}", front, next, &rest[1..]));
            for spoiled in ["/", ":", " ", "+", "a", "F", "\0", "\u{e9}", "\u{663}"] {
                out.push(format!("{}{}{}", front, spoiled, &rest[1..]));
            }
            out.push(format!("{}{}", front, &rest[1..]));
        }
    }
    let mut rng = Rng(11);
    for count in [14, 15, 14, 15, 14, 15, 14, 15, 14, 15, 12, 13, 16, 17] {
        out.push(imei(&rng.digits(count)));
    }
    for line in [
        "4901542032375 8", "49015420323751a", "+49015420323751", "49015420323751\u{e9}", "4901542032375\u{663}", "\u{ff11}901542032375", "IMEI49015420323",
        "-90154203237518", "49015420323751\0", "490154203237518 ", " 490154203237518", "/90154203237518", ":90154203237518", "490154203237518\"",
        "490154203237518f", "4901542032375181F", "+4901542032375181", "4901542032375181 ", " 4901542032375181", "490154203237-51-81",
    ] {
        out.push(line.to_string());
    }
}

fn cpsi(out: &mut Vec<String>) {
    let systems = ["NO SERVICE", "GSM", "LTE CAT-M1", "LTE NB-IOT", "LTE", "gsm", "NO  SERVICE", "GSM ", "", "WCDMA", "\u{e9}"];
    let operations = ["Online", "Offline", "Factory Test Mode", "Reset", "Low Power Mode", "online", "Online ", " Online", "", "\"Online\""];
    for system in systems {
        for operation in operations {
            out.push(format!("+CPSI: {},{},240-07,0x1F2A,14423,23 EGSM 900,-71,0,33-33", system, operation));
        }
    }
    for count in 0..=12 {
        out.push(format!("+CPSI: GSM,Online{}", ",".repeat(count)));
    }
    for line in [
        "+CPSI: GSM", "+CPSI: ", "+CPSI:GSM,Online,,,,,,,", "+CPSI: Online,GSM,,,,,,,", "+CPSI: LTE CAT-M1,Online,240-07,0x1F2A,1,2,3,4,5,6,7,8,9,,,",
        "+CPSI: NO SERVICE,Online", "+CPSI: GSM,Online,\u{e9},\",\",,,,,", "+CPSI: GSM,Reset,,,,,,,\u{1f4f6},,",
    ] {
        out.push(line.to_string());
    }
}

fn cops(out: &mut Vec<String>) {
    for mode in ["0", "1", "2", "3", "4", "5", "00", "", "+0", "-0", "0 ", " 0", "a", "\"0\"", "\u{ff10}"] {
        out.push(format!("+COPS: {}", mode));
        for format in ["0", "1", "2", "3", "00", "", "+0", "a"] {
            out.push(format!("+COPS: {},{}", mode, format));
            out.push(format!("+COPS: {},{},\"Tele2\",7", mode, format));
        }
    }
    for name in QUOTED {
        out.push(format!("+COPS: 0,0,{}", name));
        out.push(format!("+COPS: 1,2,{},7", name));
    }
    for line in [
        "+COPS: 0,0,\"Tele2 1nce.net\",7", "+COPS: 0,0,\"a,b\",7", "+COPS: 0,0,a,b,c,d", "+COPS: 0,0,,", "+COPS: 0,,", "+COPS: ,,", "+COPS:0", "+COPS: ", "+COPS",
        "+cops: 0", "+COPS: 0,0,\"refused 3\"", "+COPS: 0,0,GenericOk", "+COPS: 4,1,\"\u{df}\u{20ac}\u{1f4f6}\"", "+COPS: 0;0;x",
    ] {
        out.push(line.to_string());
    }
}

fn cntp(out: &mut Vec<String>) {
    for code in ["1", "61", "62", "63", "64", "65", "0", "2", "60", "66", "01", "", "+1", "1 ", "-1", "\"1\"", "\u{661}"] {
        out.push(format!("+CNTP: {}", code));
        for time in ["", "\"24/01/01,00:00:00+00\"", "24/01/01,00:00:00+00", ",", "\u{e9}"] {
            out.push(format!("+CNTP: {},{}", code, time));
        }
        for count in [31, 32, 33, 34] {
            out.push(format!("+CNTP: {},{}", code, "t".repeat(count)));
        }
    }
    for time in ["\u{e9}".repeat(16), "\u{e9}".repeat(17), format!("{}\u{e9}", "t".repeat(31)), format!("{}\u{e9}", "t".repeat(30)), "\u{1f4f6}".repeat(8)] {
        out.push(format!("+CNTP: 1,{}", time));
        out.push(format!("+CNTP: 9,{}", time));
    }
    for line in ["+CNTP:1", "+CNTP 1", "+CNTP: ", "+CNTP: ,", "+cntp: 1"] {
        out.push(line.to_string());
    }
    out.push(format!("+CNTP: 1,{}", ",".repeat(32)));
    out.push(format!("+CNTP: 1{}", "t".repeat(33)));
}

fn httptofs(out: &mut Vec<String>) {
    for code in [
        "100", "200", "206", "400", "404", "408", "500", "600", "601", "602", "603", "604", "620", "0", "1", "99", "101", "201", "605", "621", "999", "0200", "",
        "+200", "200 ", " 200", "abc", "\u{e9}", "\"200\"",
    ] {
        out.push(format!("+HTTPTOFS: {}", code));
        for length in ["12345", "", "x", "1,2"] {
            out.push(format!("+HTTPTOFS: {},{}", code, length));
        }
    }
    for number in integers(u64::MAX as u128) {
        out.push(format!("+HTTPTOFS: 200,{}", number));
    }
    for line in ["+HTTPTOFS:200,5", "+HTTPTOFS 200,5", "+httptofs: 200,5", "+HTTPTOFS", "+HTTPTOFS: ,", "+HTTPTOFS: ,,"] {
        out.push(line.to_string());
    }
}

fn sms(out: &mut Vec<String>) {
    for rest in ["0", "1", "2", "00", "01", "", "+1", "-0", "1 ", " 1", "1,", "0,1", "\"1\"", "a", "\u{ff11}", "1: 1", ": 1"] {
        out.push(format!("+CMGF: {}", rest));
        out.push(format!("+CMGR: {}", rest));
    }
    for line in [
        "+CMGF:1", "+CMGF : 1", "+CMGF 1", "+cmgf: 1", " +CMGF: 1", "x+CMGF: 1", "+CMGF", "+CMGR:x,y,z", "+CMGR : x,y,z", "+cmgr: x,y,z", "+CMGR", "+CMGR: x", "+CMGR: x,y",
        "+CMGR: x,y,", "+CMGR: ,,", "+CMGR: ,", "+CMGR: x,,z", "+CMGR: x,y,z,w", "+CMGR: \"REC UNREAD\",\"+46700000000\",\"\",\"24/01/01,00:00:00+00\"",
        "+CMGR: a: b,c: d,e: f", "+CMGR: \"x,y\",z,w", "+CMGS: x,y,z",
    ] {
        out.push(line.to_string());
    }
    for sender in QUOTED {
        out.push(format!("+CMGR: \"REC READ\",{},,", sender));
    }
    for count in [0, 1, 18, 19, 20, 21, 22, 30, 64] {
        for (before, after) in [("", ""), ("\"", "\""), ("\"\"", "\"\"\""), ("\"", ""), ("", "\"")] {
            let sender = &"+4670000000012345678901234567890123456789012345678901234567890123"[..count];
            out.push(format!("+CMGR: 1,{}{}{},x", before, sender, after));
            out.push(format!("+CMGR: 1,{}{}{}", before, sender, after));
        }
    }
    for sender in ["\u{e9}".repeat(10), "\u{e9}".repeat(11), format!("{}\u{e9}", "1".repeat(18)), format!("{}\u{e9}", "1".repeat(19)), "\u{1f4f6}".repeat(5), "\u{1f4f6}".repeat(6)] {
        out.push(format!("+CMGR: 1,\"{}\",x", sender));
    }
    out.push(format!("+CMGR: 1,{},x", "\"".repeat(40)));
    out.push(format!("+CMGR: 1,a{}b,x", "\"".repeat(18)));
    out.push(format!("+CMGR: 1,a{}b,x", "\"".repeat(19)));
}

fn registration(out: &mut Vec<String>) {
    let tail = ["1", "\"00A5\"", "\"01B2C3D4\"", "7", "a", "b", "c", "d", "e", "f"];
    for name in ["+CREG", "+CGREG", "+CEREG"] {
        for count in 1..=10 {
            out.push(format!("{}: {}", name, tail[..count].join(",")));
            out.push(format!("{}: 2,{}", name, tail[..count].join(",")));
            out.push(format!("{}: {}", name, ",".repeat(count - 1)));
            out.push(format!("{}: 5{}", name, ",".repeat(count - 1)));
        }
        for status in ["0", "1", "2", "3", "4", "5", "6", "10", "11", "-1", "-5", "+3"] {
            out.push(format!("{}: {}", name, status));
            out.push(format!("{}: 0,{}", name, status));
            out.push(format!("{}: {},\"00A5\",\"01B2\",7", name, status));
            out.push(format!("{}: 2,{},\"FFFE\",\"0FFFFFFF\",0", name, status));
        }
        for status in integers(i32::MAX as u128) {
            out.push(format!("{}: {}", name, status));
            out.push(format!("{}: 4,{}", name, status));
            out.push(format!("{}: {},x,y,z", name, status));
        }
        for line in ["", ":5", " : 5", " 5", ": 5: 5", ":  5", ": 5 ", "X: 5", ": x: 5"] {
            out.push(format!("{}{}", name, line));
        }
    }
    for number in hexadecimals(u16::MAX as u128) {
        out.push(format!("+CREG: 1,{},\"1\",7", number));
        out.push(format!("+CGREG: 0,1,\"{}\",\"1\",7", number));
    }
    for number in hexadecimals(u32::MAX as u128) {
        out.push(format!("+CREG: 0,1,\"1\",{},7", number));
        out.push(format!("+CGREG: 0,1,\"1\",\"{}\",7,,,", number));
    }
    for quotes in QUOTED {
        let quotes = quotes.replace("Tele2", "00a5");
        out.push(format!("+CREG: 1,{},{},7", quotes, quotes));
    }
    // +CEREG: the second field decides who is the status.
    for first in ["1", "x", "", "-3", "+5", "99999999999"] {
        for second in ["", "0", "5", "05", "+5", "-5", "5x", "x", " 5", "\"5\"", "\"00A5\"", "2147483647", "2147483648", "\u{665}", "\u{e9}", "5 "] {
            out.push(format!("+CEREG: {},{}", first, second));
            out.push(format!("+CEREG: {},{},\"00A5\",7", first, second));
        }
    }
    for line in ["+CXREG: 5", "+CREG", "CREG: 5", "+creg: 5", " +CREG: 5", "+CREG: \u{e9}", "+C5GREG: 1", "+CREG:\u{a0}5"] {
        out.push(line.to_string());
    }
}

fn ugnsinf(out: &mut Vec<String>) {
    let good = gnss_fields().join(",");
    for line in ["+UGNSINF:", "+UGNSINF: ", "+UGNSINF", "+ugnsinf: ", "UGNSINF: ", " +UGNSINF: ", "+UGNSINF:  ", "+CGNSINF: ", "+UGNSINF : "] {
        out.push(format!("{}{}", line, good));
        out.push(line.to_string());
    }
    for status in ["0", "1", "2", "", "01", "+1", "1 ", " 1", "\"1\"", "\u{ff11}"] {
        out.push(gnss(&[(0, status)]));
        out.push(gnss(&[(1, status)]));
        out.push(gnss(&[(0, status), (1, status), (3, "x"), (14, "x")]));
        for count in 18..=23 {
            out.push(format!("+UGNSINF: {}{}", status, ",".repeat(count - 1)));
            out.push(format!("+UGNSINF: 1,{}{}", status, ",".repeat(count - 2)));
        }
    }
    for count in 1..=21 {
        out.push(format!("+UGNSINF: {}", gnss_fields()[..count].join(",")));
    }
    for more in [",", ",,", ",x", ",1,2,3"] {
        out.push(format!("+UGNSINF: {}{}", good, more));
        out.push(format!("+UGNSINF: 1,0{}{}", ",".repeat(19), more));
    }
    for number in integers(u32::MAX as u128) {
        out.push(gnss(&[(1, "0"), (14, &number)]));
        for at in [14, 15, 16, 18] {
            out.push(gnss(&[(at, &number)]));
        }
    }
    for at in 0..21 {
        for text in ["", "x", "\u{e9}", "\"1\""] {
            out.push(gnss(&[(at, text)]));
        }
    }
    dates(out);
    calendar(out);
    spoiled_dates(out);
    date_and_more(out);
    floats(out);
}

/// Dates as the Rust reads them: its places, its signs, what it leaves unread. Most are none (document 02, CR 8).
fn dates(out: &mut Vec<String>) {
    for date in [
        "20240102030405", "20240102030405.000", "20240102030405.000x\u{e9}", "2024010203040", "2024010203", "2024", "202", "", "00000000000000", "99999999999999",
        "20249999999999", "65535010203040", "+024+1+2+3+4+5", "+99901020304+5", "-0010102030405", "20240-02030405", "2024-102030405", "2024 102030405",
        "20240102030 05", "202401020304050607", "2024010203040x", "x0240102030405", "2024.102030405", "20241332256199", "++2401020304050", "2024++02030405",
        "2024010203040\u{665}", "\u{662}\u{660}01020304050607",
    ] {
        out.push(gnss(&[(2, date)]));
    }
    // A character laid over each byte of the date: letters, and digits that are not ASCII's.
    for character in ["\u{e9}", "\u{20ac}", "\u{1f4f6}", "\u{663}", "\u{ff13}", "\u{1d7db}"] {
        for at in 0..=14 {
            let tail = "20240102030405.000".get(at + character.len()..).unwrap_or("");
            out.push(gnss(&[(2, &format!("{}{}{}", &"20240102030405.000"[..at], character, tail))]));
            out.push(gnss(&[(2, &format!("{}{}", &"20240102030405.000"[..at], character))]));
        }
    }
}

/// Every month's ends in a common year, a leap one, the one that 400 divides, the first and the last; each limit of each part; a leap second.
fn calendar(out: &mut Vec<String>) {
    let mut date = |text: String| out.push(gnss(&[(2, &text)]));
    for (year, tail) in [(2023, ""), (2024, ".000"), (2000, ""), (1980, ".5"), (2099, "")] {
        for month in 1..=12 {
            for day in [0, 1, 28, 29, 30, 31, 32] {
                date(format!("{}{:02}{:02}123456{}", year, month, day, tail));
            }
        }
    }
    for year in [1900, 1979, 1981, 1984, 1996, 2001, 2004, 2096, 2098, 2100, 2104, 2400] {
        for day in ["0228", "0229", "0301"] {
            date(format!("{}{}235959", year, day));
        }
    }
    for (at, limits) in [
        (0, "0000 0001 0400 1979 1980 1981 1999 2000 2098 2099 2100 9999"), (4, "00 01 02 09 10 12 13 20 99"), (6, "00 01 09 10 30 31 32 40 99"),
        (8, "00 09 19 20 23 24 25 29 30 99"), (10, "00 09 10 59 60 61 99"), (12, "00 09 10 59 60 61 99"),
    ] {
        for limit in limits.split(' ') {
            for tail in ["", ".0"] {
                date(format!("{}{}{}{}", &"20240131123456"[..at], limit, &"20240131123456"[at + limit.len()..], tail));
            }
        }
    }
    for whole in ["19791231235959", "19800101000000", "19991231235959", "20000101000000", "20161231235960", "20991231235959", "21000101000000"] {
        for tail in ["", ".000", ".999999999"] {
            date(format!("{}{}", whole, tail));
        }
    }
}

/// Every length, every way to end; one byte of a good date spoiled, put in or left out.
fn spoiled_dates(out: &mut Vec<String>) {
    let mut date = |text: String| out.push(gnss(&[(2, &text)]));
    for count in 0..=16 {
        for tail in ["", ".", ".5"] {
            date(format!("{}{}", &"2024010203040516"[..count], tail));
        }
    }
    for tail in [
        ".0", ".9", ".00", ".250", ".123456789", ".18446744073709551616", ".5.", "..5", ".5.5", ".x", ".x5", ".5x", "x", ".+5", ".-5", "+5", "-5", ".5e3", ". 5", ".5 ", " ", " .5",
        ".\0", ".5\0", "\0", ".\u{663}", ".5\u{663}", ".\u{ff13}", "\u{ff0e}5", "\u{663}", ".\u{e9}", ".5\u{1f4f6}", "./", ".:", ".5/", ".5:", "/5", ":5", "'5", ";5", "Z", ".000Z", "+00",
        ".\"5\"", "\"",
    ] {
        date(format!("20240102030405{}", tail));
    }
    for good in ["20240229235958", "20240229235958.25"] {
        for at in 0..good.len() {
            let (front, rest) = good.split_at(at);
            for spoiled in ["/", ":", "+", "-", " ", ".", "a", "\0", "\u{663}", "\u{ff13}"] {
                date(format!("{}{}{}", front, spoiled, &rest[1..]));
            }
            for more in ["0", "+", " "] {
                date(format!("{}{}{}", front, more, rest));
            }
            date(format!("{}{}", front, &rest[1..]));
        }
    }
    // Up to the last byte that a line may have.
    for tail in ["", "x", ".", "\u{e9}"] {
        for length in [255, 256, 257] {
            let start = gnss(&[(2, "20240102030405.")]).len() + tail.len();
            date(format!("20240102030405.{}{}", "3".repeat(length - start), tail));
        }
    }
}

/// 13 comes after the field count and both statuses and before every other field; without a fix the date is not read.
fn date_and_more(out: &mut Vec<String>) {
    for date in ["20240102030405", "20240102030405.5", "", "20230229120000", "20240102240000.000", "2024010203040", "20240102030405.", "\u{e9}"] {
        for (at, text) in [
            (0, "0"), (0, "00"), (0, "01"), (0, "+1"), (0, ""), (1, "0"), (1, "00"), (1, "01"), (1, "+1"), (1, ""), (3, ""), (3, "x"), (3, "1e5"), (4, ""), (4, "inf"), (5, ""), (5, "."),
            (6, ""), (6, "x"), (7, "nan"), (10, "1234567890123456"), (11, " 1"), (12, "1e5"), (12, "x"), (14, ""), (14, "x"), (15, "-1"), (16, "4294967296"), (18, "x"), (20, "x"),
        ] {
            out.push(gnss(&[(2, date), (at, text)]));
        }
        let line = gnss(&[(2, date)]);
        out.push(line[..line.len() - 1].to_string());
        out.push(format!("{},", line));
        out.push(gnss(&[(0, "0"), (1, "0"), (2, date), (3, "x")]));
        out.push(format!("+UGNSINF: 1,1,{}{}", date, ",".repeat(18)));
    }
}

fn floats(out: &mut Vec<String>) {
    let places = [3, 4, 5, 6, 7, 10, 11, 12];
    // Each line carries the next eight numerals, so that each place sees many.
    for (turn, eight) in numerals().chunks(8).enumerate() {
        let changes: Vec<(usize, &str)> = eight.iter().enumerate().map(|(at, text)| (places[(at + turn) % 8], text.as_str())).collect();
        out.push(gnss(&changes));
    }
    for (turn, text) in BAD_FLOATS.iter().chain(FLOATS_BY_RULE).enumerate() {
        out.push(gnss(&[(places[turn % 8], text)]));
        out.push(gnss(&[(1, "0"), (places[turn % 8], text)]));
    }
    for at in places {
        for text in ["-0", "16777219", "", ".", "1e5", "1234567890123456", "inf", "nan", " 1"] {
            out.push(gnss(&[(at, text)]));
        }
    }
}

fn lengths(out: &mut Vec<String>) {
    for start in ["+COPS: 0,0,", "+COPS: 0,0,x,", "+HTTPTOFS: 200,", "+CME ERROR: ", "+CREG: ", "+CMGR: a,b,", "+CPSI: GSM,Online,,,,,,,", "+CEREG: 5,x", "> ", "8", "x"] {
        for length in [255, 256, 257, 258] {
            for filler in ["0", "\u{e9}"] {
                let count = (length - start.len()) / filler.len();
                let line = format!("{}{}", start, filler.repeat(count));
                out.push(format!("{}{}", line, "0".repeat(length - line.len())));
            }
        }
    }
    for length in [256, 257] {
        let good = gnss_fields().join(",");
        out.push(format!("+UGNSINF: {}{}", good, "v".repeat(length - 10 - good.len())));
        out.push(format!("8901260862291477114{}", "f".repeat(length - 19)));
        out.push(format!("{}5, CLOSE OK", "0".repeat(length - 11)));
    }
    for length in [300, 511, 512, 513, 1000, 5000] {
        out.push(format!("+COPS: 0,0,{}", "x".repeat(length - 11)));
    }
}

/// Lines of the published readers that document 01 leaves out.
fn left_out(out: &mut Vec<String>) {
    for line in [
        "+CCLK: \"24/01/01,00:00:00+00\"", "+CMGS: 5", "+CGNAPN: 1,\"iot.1nce.net\"", "+CGNAPN: 0,", "1, CLOSED", "1, SEND OK", "1, SEND FAIL", "1, CONNECT OK",
        "1, CONNECT FAIL", "1, ALREADY CONNECT", "RDY", "+CPIN: READY", "+CFUN: 1", "SMS Ready", "NORMAL POWER DOWN", "+CMTI: \"SM\",3", "+APP PDP: ACTIVE",
        "Revision:1529B08SIM7000G", "+CIFSREX: 10.0.0.1", "+CGNSCPY: 0", "+CGNSXTRA: 0", "+RECEIVE,0,5:",
    ] {
        out.push(line.to_string());
    }
}

fn ends(out: &mut Vec<Vec<u8>>) {
    for line in ["OK\r", "OK\r\r", "\r", "\r\r", "\rOK", "> \r", ">\r", "+CSQ: 31,99\r", "+CNTP: 1,\r\r", "+CMGR: a,\r,c\r", "+COPS: 0,0,\"a\"\r\r", "O\rK"] {
        out.push(line.as_bytes().to_vec());
    }
    for length in [256, 257] {
        let mut line = format!("+COPS: 0,0,{}", "x".repeat(length - 11)).into_bytes();
        line.push(b'\r');
        out.push(line.clone());
        line.push(b'\r');
        out.push(line);
    }
}

fn not_utf8(out: &mut Vec<Vec<u8>>) {
    for bytes in [
        &b"\x80"[..], b"\xbf", b"\xc0\x80", b"\xc1\xbf", b"\xc3", b"\xe0\x9f\xbf", b"\xe2\x82", b"\xed\xa0\x80", b"\xed\xbf\xbf", b"\xf0\x8f\xbf\xbf",
        b"\xf0\x9f\x93", b"\xf4\x90\x80\x80", b"\xf5\x80\x80\x80", b"\xfe", b"\xff",
    ] {
        for (before, after) in [(&b""[..], &b""[..]), (b"+COPS: 0,0,\"", b"\",7"), (b"8", b"1111111111111111"), (b"OK", b"")] {
            out.push([before, bytes, after].concat());
        }
    }
    // a fix, at each byte of its date
    let fix = gnss(&[]).into_bytes();
    for at in 14..32 {
        for byte in [128, 255] {
            let mut line = fix.clone();
            line[at] = byte;
            out.push(line);
        }
    }
    out.push([b"+COPS: 0,0,", &b"x".repeat(245)[..], b"\xff"].concat());
    out.push([b"+COPS: 0,0,", &b"x".repeat(244)[..], b"\xff"].concat());
}

pub fn requests() -> Vec<Vec<u8>> {
    let mut out: Vec<Vec<u8>> = Vec::new();
    let names = [
        "GetSignalQuality", "ShowIccid", "GetImei", "GetOperatorInfo", "SetAutomaticOperator", "GetSystemInfo", "Execute", "GetSmsMessageFormat", "SetManualOperator",
        "SynchronizeNetworkTime", "DownloadToFileSystem", "SetSmsMessageFormat", "ReadSms",
    ];
    for name in names {
        for tail in ["", "\t", "\t1", "\t1\t2", "\t1\t2\t3", "\t1\t2\t3\t4", " ", "x", "\tPdu", "\r"] {
            out.push(format!("{}{}", name, tail).into_bytes());
        }
        out.push(name.to_lowercase().into_bytes());
        out.push(format!(" {}", name).into_bytes());
    }
    for line in [
        "", " ", "\t", "AT+CSQ", "SetSmsMessageFormat\tText", "SetSmsMessageFormat\ttext", "SetSmsMessageFormat\t0", "SetSmsMessageFormat\tText ", "\u{e9}", "ReadSms 1",
    ] {
        out.push(line.as_bytes().to_vec());
    }
    for number in integers(u8::MAX as u128) {
        out.push(format!("ReadSms\t{}", number).into_bytes());
        out.push(format!("SynchronizeNetworkTime\tpool.ntp.org\t0\t{}", number).into_bytes());
    }
    for number in integers(u16::MAX as u128) {
        out.push(format!("SynchronizeNetworkTime\tpool.ntp.org\t{}\t1", number).into_bytes());
    }
    let texts = |text: &[u8], out: &mut Vec<Vec<u8>>| {
        out.push([b"SetManualOperator\t", text].concat());
        out.push([b"SynchronizeNetworkTime\t", text, b"\t65535\t255"].concat());
        out.push([b"DownloadToFileSystem\t", text, b"\t/custapp/a.bin"].concat());
        out.push([b"DownloadToFileSystem\thttp://a.b/c\t", text].concat());
    };
    for byte in 32..=126 {
        texts(&[byte], &mut out);
    }
    for byte in [0, 1, 8, 11, 13, 27, 31, 127, 128, 191, 192, 194, 240, 255] {
        texts(&[byte], &mut out);
        texts(&[b'a', byte, b'b'], &mut out);
    }
    for text in [
        "", "24007", "310410", "\"\"", "\\\"", "\"\\", "\\\\\\", "\"\"\"\"\"\"", "\\\\\\\\\\\\", "a\"b", "a\\b", "'", "''", "\\n", "\\u{e9}", "{}", "{:?}", "%s", "a b", " a", "a ", "\u{e9}",
        "\u{20ac}", "\u{1f4f6}", "\u{200b}", "\u{301}", "\u{7f}a", "a\r", "\u{1b}a", "\0\0",
    ] {
        texts(text.as_bytes(), &mut out);
    }
    for filler in ["x", "\"", "\\", "~", " ", "\u{1}", "\u{7f}", "\u{e9}", "\u{301}"] {
        for count in [5, 6, 7, 8, 31, 32, 33, 34, 63, 64, 65, 66, 128, 300] {
            texts(filler.repeat(count).as_bytes(), &mut out);
        }
    }
    operators(&mut out);
    for (url, path) in [(64, 32), (64, 33), (65, 32), (65, 33), (0, 0), (64, 0), (0, 32)] {
        for filler in ["x", "\"", "\\", "\u{1}"] {
            out.push(format!("DownloadToFileSystem\t{}\t{}", filler.repeat(url), filler.repeat(path)).into_bytes());
        }
        out.push(format!("DownloadToFileSystem\t{}\t{}", "\u{1}".repeat(url), "x".repeat(path)).into_bytes());
        out.push(format!("DownloadToFileSystem\t{}\t{}", "x".repeat(url), "\u{1}".repeat(path)).into_bytes());
    }
    // 5 comes before 6, over both texts; no request at all comes before both.
    out.push([&b"DownloadToFileSystem\t\x01\t"[..], &b"x".repeat(33)[..]].concat());
    out.push([&b"DownloadToFileSystem\t\xff\t"[..], &b"x".repeat(33)[..]].concat());
    out.push([&b"SynchronizeNetworkTime\t"[..], &b"x".repeat(65)[..], b"\tx\t1"].concat());
    out.push(b"SynchronizeNetworkTime\t\x01\t1\t256".to_vec());
    out.push(b"SynchronizeNetworkTime\ta\t1\t\xff".to_vec());
    once(out)
}

/// Operator numbers (document 02, CR 2): five or six digits, one byte of them spoiled, every other length; 5 comes before 12, and 12 before 6.
fn operators(out: &mut Vec<Vec<u8>>) {
    let mut operator = |plmn: &[u8]| out.push([b"SetManualOperator\t", plmn].concat());
    for plmn in ["64304", "310410", "00000", "000000", "99999", "999999", "64304\"", "\"64304", "\"6430\"", "64304 ", " 64304", "+64304", "-6430", "643.04", "6430\r", "643\u{663}", "0x1F4"] {
        operator(plmn.as_bytes());
    }
    for length in 0..=9 {
        operator(&b"643041072"[..length]);
        operator(&vec![0; length]);
    }
    for length in 5..=7 {
        for at in 0..length {
            for byte in [0, 31, b'"', b'/', b':', b'a', 127, 128, 255] {
                let mut plmn = b"6430410"[..length].to_vec();
                plmn[at] = byte;
                operator(&plmn);
            }
        }
    }
}
