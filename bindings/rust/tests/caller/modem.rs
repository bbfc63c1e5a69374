//! What both callers are given.

/// The type's name, as it is written without paths and lifetimes.
pub fn awaits<T>() -> String {
    let whole = std::any::type_name::<T>().replace("<'_>", "");
    whole.split(", ").map(|name| name.rsplit("::").next().unwrap_or(name)).collect::<Vec<_>>().join(", ").replace(['(', ')'], "")
}

/// Lines inside the domain in which this crate and the published program answer alike.
pub const LINES: &[&str] = &[
    "OK",
    "SHUT OK",
    "ERROR",
    "+CME ERROR: 10",
    "+CMS ERROR: 305",
    "> ",
    "7, CLOSE OK",
    "8988280666001104843f",
    "89460712345678901234",
    "+CSQ: 31,99",
    "+CSQ: 0,7",
    "+CSQ: 32,0",
    "+CPSI: LTE CAT-M1,Online,240-07,0x0065,1,2,3,4,5,6",
    "+CPSI: NO SERVICE,Low Power Mode,,,,,,,",
    "+COPS: 0,0,\"Tele2 1nce.net\",7",
    "+CREG: 1,\"00A5\",\"01B2C3D4\",7",
    "+COPS: 4,2",
    "+CGREG: 2,5,\"FFFF\",\"x\",0",
    "+CEREG: 3",
    "+CNTP: 1,\"2024/02/29,23:59:58\"",
    "+CNTP: 61",
    "+CNTP: 2",
    "+HTTPTOFS: 200,4096",
    "+HTTPTOFS: 404",
    "+HTTPTOFS: 999,x",
    "490154203237518",
    "490154203237517",
    "+CMGF: 1",
    "+CMGF: 2",
    "+CMGR: \"REC READ\",\"+46700000000\",,\"24/02/29,23:59:58+04\"",
    "+UGNSINF: 0,,,,,,,,,,,,,,,,,,,,",
    "+UGNSINF: 1,0,,,,,,,,,,,,,7,,,,,,",
    "+UGNSINF: 1,1,20240229235958.000,-33.856784,151.215297,44.5,1.25,270.5,1,,0.9,1.3,0.8,,11,9,4,,42,,",
    "+UGNSINF: 1,1,20240229235958.000,,151.215297,44.5,,,,,,,,,,,,,,,",
    "hello",
    "",
];
