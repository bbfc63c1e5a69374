//! The proved readers, writers and desk for the SIM7000 modem, under the names of technocreatives/sim7000.
//!
//! The work is done by libsim7000.a, whose calls are proved; what is here turns numbers into types. A text that is read is a part of the line
//! that was lent; nothing is allocated, and nothing stops: what cannot be done is a [`Refusal`].
//!
//! - [`ResponseCode::from_line`] and [`Urc::from_line`] read a line, and so does each answer by itself; [`Line::from_line`] reads what may be either, and bytes
//!   that may not be UTF-8.
//! - The request structs, such as [`SetManualOperator`], write their command with [`AtRequest::encode`].
//! - A [`Desk`] cuts a modem's bytes into lines and says what each is to the command that is open. Where the modem's echo is on, [`Desk::open_echo`] keeps a late
//!   reply from being taken for the next command's.
//!
//! ```
//! use sim7000::{Desk, Event, GetOperatorInfo, Line, ResponseCode, LONGEST_COMMAND, LONGEST_LINE};
//!
//! # fn to_modem(_: &[u8]) {}
//! # fn from_modem() -> &'static [u8] { b"AT+COPS?\r\r\n\r\n+COPS: 0,0,\"Tele2\",7\r\n\r\nOK\r\n" }
//! let (mut desk, mut out, mut text) = (Desk::new(), [0; LONGEST_COMMAND], [0; LONGEST_LINE]);
//! to_modem(desk.open_echo(GetOperatorInfo, &mut out)?);
//! let mut hearing = desk.hear(from_modem(), &mut text);
//! while let Some(heard) = hearing.next() {
//!     match (heard.event, Line::from_line(heard.line)) {
//!         (Event::Taken, Ok(Line::Response(ResponseCode::OperatorInfo(info)))) => assert_eq!(info.operator_name, "Tele2"),
//!         (Event::Echo | Event::Done, _) => {}
//!         (event, _) => panic!("line {}: {:?}", heard.ordinal, event),
//!     }
//! }
//! assert!(!desk.is_open());
//! # Ok::<(), sim7000::Refusal>(())
//! ```
//!
//! # What a caller of the published program changes
//!
//! Modules, types, variants and fields are the published ones, under [`at_command`]; all names stand at the crate's root as well. `tests/caller` has a small
//! caller before and after.
//!
//! | Published | Here |
//! |---|---|
//! | the crate `sim7000_async` | `sim7000`, without features and without another crate |
//! | `ResponseCode`, `OperatorInfo`, `NetworkTime`, `Imei`, `SmsMessage` | have a lifetime, that of the line: `ResponseCode<'_>` |
//! | `heapless::String<N>` in them | `&str`, a part of the line; who keeps it longer than the line copies it |
//! | `SetManualOperator`, `SynchronizeNetworkTime`, `DownloadToFileSystem` own their texts: `plmn: "64304".into()` | the texts are lent: `plmn: "64304"` |
//! | a text that is too long stops the program where it is made, or in `from_line` | it is refused: by `encode` with 5, by `from_line` with 4 |
//! | `request.encode()`, a `String<256>` | `request.encode(&mut out)?`, the written front of a lent buffer, as bytes; [`LONGEST_COMMAND`] bytes are enough |
//! | a plmn or text with any character | a plmn is five or six digits (12), the other texts are bytes 32 to 126 (6) |
//! | `R: AtRequest` in bounds, `R::Response` | `R: AtRequest<'l>`, where `'l` is that of the lines that answer it, or `R: for<'l> AtRequest<'l>` |
//! | sending a request, and reading until its answers are there | [`Desk::open`] or [`Desk::open_echo`], which take a request struct by value, or a [`Request`]; in a generic caller the bound is `R: AtRequest<'l> + Into<Request<'r>>` |
//! | `AtParseLine`, inside the crate alone | [`AtParseLine<'a>`](AtParseLine), for all; `from_line` is also a function of each type, so that calls need no import |
//! | `AtParseErr`, whose text nobody sees | [`Refusal`], with a number, names and a text |
//! | the other members of `ResponseCode` and `Urc` | left out: their lines are refused with 3. A match on either has an arm for any other |
//! | `AtResponse::from_generic`, `defmt` | left out: match on the [`ResponseCode`]; every type is `Debug` |
//! | `Imei { imei }` | also [`is_version_number`](Imei::is_version_number): sixteen digits have no check digit, and all of them are taken |
//! | a fix whose date is missing or impossible has zeros, or what stands there | its line is refused with 13 |
//! | `DateTime::new` | left out: a date is read with its fix |
//! | `DownloadInfo::data_length` is private | it is public |
//! | `StatusCode::success` wants `&mut` | it takes the value |
//! | answers are `Debug` alone, or little more | all are also `Clone`, `Copy` and `PartialEq` |
//! | `read::ModemReader` | [`Desk`]: it is given bytes, and waits for nothing |
//!
//! docs/DIFFERENCES.md has every line and request that is answered otherwise than there.
//!
//! [`Event`], [`ResponseCode`], [`Urc`], [`Line`] and [`Request`] may gain variants, [`Heard`] and [`Fed`] fields, and [`Refusal`] names, as the later requests of
//! document 02 land.

#![no_std]
#![deny(missing_docs)]

pub mod at_command;
mod desk;
mod hearing;
mod line;
mod raw;
mod refusal;
mod request;
mod values;

pub use at_command::cmgr::{ReadSms, SmsMessage};
pub use at_command::cntp::{NetworkTime, SyncNtpStatusCode};
pub use at_command::cpsi::OperationMode;
pub use at_command::httptofs::{DownloadInfo, StatusCode};
pub use at_command::unsolicited::{DateTime, GnssFix, GnssReport, NetworkRegistration, RegistrationStatus, Urc};
pub use at_command::{AtParseLine, AtRequest, ResponseCode};
pub use at_command::{CloseOk, GenericOk, Iccid, Imei, OperatorFormat, OperatorInfo, OperatorMode, SignalQuality, SimError, WritePrompt};
pub use at_command::{DownloadToFileSystem, Execute, GetImei, GetOperatorInfo, GetSignalQuality, GetSmsMessageFormat, GetSystemInfo};
pub use at_command::{SetAutomaticOperator, SetManualOperator, SetSmsMessageFormat, ShowIccid, SynchronizeNetworkTime};
pub use at_command::{SmsMessageFormat, SystemInfo, SystemMode};
pub use desk::{Desk, Event, Fed, Heard};
pub use hearing::Hearing;
pub use line::{sort_line, Line};
pub use refusal::Refusal;
pub use request::Request;

/// The most bytes that a line has, and so what the text buffer of a [`Desk`] needs.
pub const LONGEST_LINE: usize = 256;

/// The most bytes that a command has.
pub const LONGEST_COMMAND: usize = 210;

/// The version of the archive that is linked: major, minor and patch, as `major * 10000 + minor * 100 + patch`.
pub fn version() -> u32 {
    // It takes nothing and reads nothing.
    unsafe { raw::sim7000_version() }
}
