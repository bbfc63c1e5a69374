//! The published Rust for bench.c: its trial over many lines, and its writers over many requests. Numbers of readers are those of sim7000.h.

#[allow(warnings)]
#[path = "../target/oracle/published/at_command/mod.rs"]
mod at_command;
#[path = "../target/oracle/published/util.rs"]
mod util;

use at_command::unsolicited::Urc;
use at_command::*;
use std::slice::from_raw_parts;
use std::str::from_utf8;

extern "C" {
    /// Defined in bench.c: whatever lies there counts as used.
    fn keep(used: *const u8);
}

fn used<T>(value: &T) {
    unsafe { keep(value as *const T as *const u8) }
}

fn reader(code: &ResponseCode) -> u8 {
    match code {
        ResponseCode::Ok(_) => 1,
        ResponseCode::Error(_) => 2,
        ResponseCode::WritePrompt(_) => 3,
        ResponseCode::CloseOk(_) => 4,
        ResponseCode::Iccid(_) => 5,
        ResponseCode::SignalQuality(_) => 6,
        ResponseCode::SystemInfo(_) => 7,
        ResponseCode::OperatorInfo(_) => 8,
        ResponseCode::NetworkTime(_) => 9,
        ResponseCode::DownloadInfo(_) => 10,
        ResponseCode::Imei(_) => 11,
        ResponseCode::SmsMessageFormat(_) => 12,
        ResponseCode::SmsMessage(_) => 13,
    }
}

/// 0 where no reader accepts the line.
fn read_line(line: &[u8]) -> u8 {
    let line = match from_utf8(line) {
        Ok(line) => line,
        Err(_) => return 0,
    };
    if let Ok(code) = ResponseCode::from_line(line) {
        used(&code);
        return reader(&code);
    }
    match Urc::from_line(line) {
        Ok(urc) => {
            used(&urc);
            match urc {
                Urc::GnssReport(_) => 14,
                Urc::NetworkRegistration(_) => 15,
            }
        }
        Err(_) => 0,
    }
}

/// # Safety
/// `line` has `len` bytes.
#[no_mangle]
pub unsafe extern "C" fn rust_read_line(line: *const u8, len: usize) -> u8 {
    read_line(from_raw_parts(line, len))
}

/// The sum of the readers over the lines that begin at `starts`, each up to the next one's start less one byte.
///
/// # Safety
/// `starts` has `count` + 1 places of `bytes`, rising.
#[no_mangle]
pub unsafe extern "C" fn rust_read_lines(bytes: *const u8, starts: *const usize, count: usize) -> u64 {
    let starts = from_raw_parts(starts, count + 1);
    let mut sum = 0;
    for pair in starts.windows(2) {
        sum += read_line(from_raw_parts(bytes.add(pair[0]), pair[1] - 1 - pair[0])) as u64;
    }
    sum
}

enum Asked {
    GetSignalQuality(GetSignalQuality),
    ShowIccid(ShowIccid),
    GetImei(GetImei),
    GetOperatorInfo(GetOperatorInfo),
    SetManualOperator(SetManualOperator),
    SetAutomaticOperator(SetAutomaticOperator),
    GetSystemInfo(GetSystemInfo),
    SynchronizeNetworkTime(SynchronizeNetworkTime),
    Execute(Execute),
    DownloadToFileSystem(DownloadToFileSystem),
    GetSmsMessageFormat(GetSmsMessageFormat),
    SetSmsMessageFormat(SetSmsMessageFormat),
    ReadSms(cmgr::ReadSms),
}

fn encode(asked: &Asked) -> heapless::String<256> {
    match asked {
        Asked::GetSignalQuality(request) => request.encode(),
        Asked::ShowIccid(request) => request.encode(),
        Asked::GetImei(request) => request.encode(),
        Asked::GetOperatorInfo(request) => request.encode(),
        Asked::SetManualOperator(request) => request.encode(),
        Asked::SetAutomaticOperator(request) => request.encode(),
        Asked::GetSystemInfo(request) => request.encode(),
        Asked::SynchronizeNetworkTime(request) => request.encode(),
        Asked::Execute(request) => request.encode(),
        Asked::DownloadToFileSystem(request) => request.encode(),
        Asked::GetSmsMessageFormat(request) => request.encode(),
        Asked::SetSmsMessageFormat(request) => request.encode(),
        Asked::ReadSms(request) => request.encode(),
    }
}

/// The list that `rust_ask` fills.
pub struct Requests(Vec<Asked>);

#[no_mangle]
pub extern "C" fn rust_requests() -> *mut Requests {
    Box::into_raw(Box::new(Requests(Vec::new())))
}

/// A request by its number in sim7000.h and its parameters there, behind the others of the list.
///
/// # Safety
/// `list` comes from `rust_requests`; `first` and `second` have as many bytes of ASCII as is said.
#[no_mangle]
pub unsafe extern "C" fn rust_ask(list: *mut Requests, request: u8, number: u16, code: u8, first: *const u8, first_len: usize, second: *const u8, second_len: usize) {
    let first = from_utf8(from_raw_parts(first, first_len)).unwrap();
    let second = from_utf8(from_raw_parts(second, second_len)).unwrap();
    (*list).0.push(match request {
        0 => Asked::GetSignalQuality(GetSignalQuality),
        1 => Asked::ShowIccid(ShowIccid),
        2 => Asked::GetImei(GetImei),
        3 => Asked::GetOperatorInfo(GetOperatorInfo),
        4 => Asked::SetManualOperator(SetManualOperator { plmn: first.into() }),
        5 => Asked::SetAutomaticOperator(SetAutomaticOperator),
        6 => Asked::GetSystemInfo(GetSystemInfo),
        7 => Asked::SynchronizeNetworkTime(SynchronizeNetworkTime { ntp_server: first.into(), timezone: number, cid: code }),
        8 => Asked::Execute(Execute),
        9 => Asked::DownloadToFileSystem(DownloadToFileSystem { url: first.into(), file_path: second.into() }),
        10 => Asked::GetSmsMessageFormat(GetSmsMessageFormat),
        11 => Asked::SetSmsMessageFormat(SetSmsMessageFormat(if code == 0 { SmsMessageFormat::Pdu } else { SmsMessageFormat::Text })),
        _ => Asked::ReadSms(cmgr::ReadSms { index: code }),
    });
}

/// The size of the command at `at` of the list, whose bytes go to `out`.
///
/// # Safety
/// `list` comes from `rust_requests` and has so many requests; `out` has 256 bytes.
#[no_mangle]
pub unsafe extern "C" fn rust_command(list: *const Requests, at: usize, out: *mut u8) -> usize {
    let command = encode(&(&(*list).0)[at]);
    std::ptr::copy_nonoverlapping(command.as_ptr(), out, command.len());
    command.len()
}

/// The sum of the sizes of all commands.
///
/// # Safety
/// `list` comes from `rust_requests`.
#[no_mangle]
pub unsafe extern "C" fn rust_commands(list: *const Requests) -> u64 {
    let mut sum = 0;
    for asked in &(*list).0 {
        let command = encode(asked);
        used(&command);
        sum += command.len() as u64;
    }
    sum
}
