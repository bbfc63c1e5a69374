//! Texts of numbers at and around every edge that document 01 draws, and the random numbers that the generators draw from.

/// splitmix64: the same sequence from the same seed everywhere.
#[derive(Clone)]
pub struct Rng(pub u64);

impl Rng {
    pub fn next(&mut self) -> u64 {
        self.0 = self.0.wrapping_add(0x9e37_79b9_7f4a_7c15);
        let mut z = self.0;
        z = (z ^ (z >> 30)).wrapping_mul(0xbf58_476d_1ce4_e5b9);
        z = (z ^ (z >> 27)).wrapping_mul(0x94d0_49bb_1331_11eb);
        z ^ (z >> 31)
    }

    pub fn below(&mut self, n: usize) -> usize {
        (self.next() % n as u64) as usize
    }

    pub fn between(&mut self, low: usize, high: usize) -> usize {
        low + self.below(high - low + 1)
    }

    pub fn percent(&mut self, chance: usize) -> bool {
        self.below(100) < chance
    }

    pub fn pick<'a, T: ?Sized>(&mut self, from: &[&'a T]) -> &'a T {
        from[self.below(from.len())]
    }

    pub fn digits(&mut self, count: usize) -> String {
        (0..count).map(|_| (b'0' + self.below(10) as u8) as char).collect()
    }
}

pub const ODD_INTEGERS: &[&str] = &[
    "0", "1", "7", "9", "10", "00", "007", "+0", "+1", "+00", "+007", "-0", "-1", "-00", "+", "-", "", "++1", "+-1", "-+1", "--1", "1+",
    " 1", "1 ", "1\t", "1a", "a", "0x1", "1.0", "1.", "1e3", "1_0", "\u{ff11}", "\u{663}", "1\u{663}", "\u{b2}", "/", ":", "1:", "\0",
];

/// The edges of one width: its greatest, its neighbours, signs, leading zeros, one digit more.
pub fn limit_integers(greatest: u128) -> Vec<String> {
    let mut out = Vec::new();
    for n in [greatest - 1, greatest, greatest + 1, greatest + 2, greatest * 10, greatest * 10 + 9] {
        for sign in ["", "+", "-"] {
            out.push(format!("{}{}", sign, n));
        }
    }
    out.push(format!("{:040}", greatest));
    out.push(format!("{:040}", greatest + 1));
    out.push(format!("+{:060}", greatest));
    out.push(format!("{}a", greatest));
    out.push(format!("{} ", greatest));
    out.push("9".repeat(greatest.to_string().len()));
    out.push("340282366920938463463374607431768211456".to_string());
    out
}

pub fn integers(greatest: u128) -> Vec<String> {
    let mut out: Vec<String> = ODD_INTEGERS.iter().map(|text| text.to_string()).collect();
    out.extend(limit_integers(greatest));
    out
}

pub fn hexadecimals(greatest: u128) -> Vec<String> {
    let mut out = Vec::new();
    for n in [0, 1, 9, 10, 15, 16, 0xa5, 0x1b2, greatest - 1, greatest, greatest + 1, greatest * 16, greatest * 16 + 15] {
        for text in [format!("{:x}", n), format!("{:X}", n), format!("{:08X}", n), format!("+{:x}", n), format!("-{:x}", n)] {
            out.push(text);
        }
    }
    out.push(format!("{:032x}", greatest));
    for text in [
        "", "+", "-", "g", "G", "0g", "@", "`", "0x1", "aBcD", "AbCd", "++1", "-0", " a", "a ", "/", ":", "\u{ff21}", "1\u{e9}", "a\"b", "_",
    ] {
        out.push(text.to_string());
    }
    out
}

/// An optional sign, one to fifteen digits, at most one point.
pub fn desk_numeral(text: &str) -> bool {
    let unsigned = text.strip_prefix(['+', '-']).unwrap_or(text);
    let digits = unsigned.bytes().filter(u8::is_ascii_digit).count();
    let points = unsigned.bytes().filter(|&byte| byte == b'.').count();
    (1..=15).contains(&digits) && points <= 1 && digits + points == unsigned.len()
}

const PLAIN_NUMERALS: &[&str] = &[
    "0", "-0", "+0", "0.0", "-0.0", ".0", "0.", "-.0", "+.0", "-0.", "1", "+1", "-1", "1.", "+1.", "-1.", ".1", "+.1", "-.1", "01", "001.100",
    "0.1", "0.2", "0.3", "0.7", "1.1", "59.330211", "18.068581", "-33.856784", "151.215297", "44.5", "0.14", "0.28", "18.10", "3.1415926535897",
    "2.7182818284590", "16777215", "16777216", "16777217", "16777218", "16777219", "16777220", "16777221", "-16777217", "-16777219", "33554431",
    "33554433", "33554434", "33554435", "33554437", "67108867", "67108865", "67108866", "8388607.5", "8388608.5", "8388609.5", "8388607.25",
    "8388607.75", "4194304.25", "4194304.75", "4194303.125", "16777217.0000000", "16777217.0000001", "16777216.9999999", "16777219.0000000",
    "16777218.9999999", "16777219.0000001", ".000000000000001", "-.000000000000001", "0.00000000000001", "000000000000001", "999999999999999",
    "-999999999999999", "99999999999999.9", "9.99999999999999", ".999999999999999", "0.99999999999999", "0.99999997", "0.99999998",
    "0.99999994", ".999999970197678", ".999999970197677", "1.00000005960464", "1.00000005960465", "1.00000017881393", "1.00000017881394",
    "562949953421312", "562949936644096", "562949970198528", "281474985099264", "281474993487872", "281475001876480", "281474976710656",
    "281474993487871", "281474993487873", "000000000000000", "-000000000000000", "0.00000000000000", "00000000000000.", ".00000000000000",
    "1024", "65504", "65536", "100000", "1000000", "10000000", "100000000", "1000000000", "10000000000", "100000000000", "1000000000000",
    "10000000000000", "100000000000000",
];

/// Desk numerals: chosen ones, every count of digits with the point at every place, and decimals next to the middle of two floats.
pub fn numerals() -> Vec<String> {
    let mut out: Vec<String> = PLAIN_NUMERALS.iter().map(|text| text.to_string()).collect();
    for count in 1..=15 {
        out.push("9".repeat(count));
        out.push("123456789012345"[..count].to_string());
    }
    for (count, sign) in [(15, ""), (15, "-"), (8, "+"), (3, ""), (1, "-")] {
        for place in 0..=count {
            let digits = &"987654321098765"[..count];
            out.push(format!("{}{}.{}", sign, &digits[..place], &digits[place..]));
        }
    }
    let mut rng = Rng(7);
    for _ in 0..60 {
        out.push(near_tie(&mut rng));
    }
    for _ in 0..40 {
        out.push(twice_rounded(&mut rng));
    }
    out
}

/// A decimal of at most fifteen digits at, or next to, the middle of two neighbouring floats.
pub fn near_tie(rng: &mut Rng) -> String {
    let middle = ((1 << 23) + rng.below(1 << 23) as u128) * 2 + 1;
    let twos = rng.between(0, 50) as u32;
    let nudge = rng.pick(&[&-1i128, &0, &0, &1]);
    let most = if rng.percent(70) { 15 } else { rng.between(0, 15) as u32 };
    for places in (0..=most).rev() {
        let scaled = middle * 10u128.pow(places);
        let exponent = twos as i32 - 25;
        let digits = if exponent >= 0 { scaled << exponent } else { ((scaled >> (-exponent - 1)) + 1) >> 1 };
        if digits < 999_999_999_999_999 && digits > 0 {
            return point((digits as i128 + nudge) as u128, places as usize);
        }
    }
    "0.5".to_string()
}

/// A numeral that comes out wrong when it is rounded to f64 first.
pub fn twice_rounded(rng: &mut Rng) -> String {
    loop {
        let text = near_tie(rng);
        if text.parse::<f64>().unwrap() as f32 != text.parse::<f32>().unwrap() {
            return text;
        }
    }
}

fn point(digits: u128, places: usize) -> String {
    if places == 0 {
        return digits.to_string();
    }
    let padded = format!("{:0width$}", digits, width = places);
    let (whole, part) = padded.split_at(padded.len() - places);
    format!("{}.{}", whole, part)
}

/// What the Rust reads as a float and document 01 refuses.
pub const FLOATS_BY_RULE: &[&str] = &[
    "1e5", "1E5", "1e-5", "1e+5", "+1e+5", "-1.5e2", "1.e2", ".5e1", "0e0", "1e38", "1e39", "1e-45", "1e-50", "3.4028235e38", "1e400", "1e-400",
    "inf", "-inf", "+inf", "INF", "Inf", "infinity", "-infinity", "Infinity", "INFINITY", "nan", "NaN", "NAN", "+nan", "-nan",
    "1234567890123456", "0000000000000000", "0000000000000001", "0.000000000000000", "0.000000000000001e0", ".0000000000000001",
    "1.000000059604644775390625", "16777217.00000000", "99999999999999999999", "-1234567890.123456", "1000000000000000", "1234567890123456.",
    "340282350000000000000000000000000000000", "340282360000000000000000000000000000000",
];

/// What both refuse as a float.
pub const BAD_FLOATS: &[&str] = &[
    "", ".", "+", "-", "+.", "-.", "1.2.3", "..1", "1..", ".1.", " 1", "1 ", "1_0", "0x1p3", "--1", "++1", "+-1", "1-", "1+", "\u{661}", "\u{ff11}.5",
    "1f", "1.5f32", "a", "1a", "e5", "1e", "1e+", ".e1", "infinit", "infin", "in", "na", "nanx", "1.5.", "1;5", "\u{2212}1", "0x10", "1\0",
];
