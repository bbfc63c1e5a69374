//! A small caller of the published program: a logger that asks, and notes what the modem says. after.rs is the same logger with this crate.

use crate::modem::{awaits, LINES};

use crate::at_command::cmgr::ReadSms;
use crate::at_command::unsolicited::{GnssReport, Urc};
use crate::at_command::{AtParseLine, AtRequest, ResponseCode, SimError};
use crate::at_command::{DownloadToFileSystem, Execute, GetImei, GetOperatorInfo, GetSignalQuality, GetSmsMessageFormat, GetSystemInfo};
use crate::at_command::{SetAutomaticOperator, SetManualOperator, SetSmsMessageFormat, ShowIccid, SmsMessageFormat, SynchronizeNetworkTime};

#[derive(Default)]
pub struct Logger {
    notes: Vec<String>,
    operator: String,
}

impl Logger {
    fn ask<R: AtRequest>(&mut self, request: R) {
        let command = request.encode();
        self.notes.push(format!("{:?} {} awaits {}", request, command.trim_end(), awaits::<R::Response>()));
    }

    fn ask_all(&mut self) {
        self.ask(GetSignalQuality);
        self.ask(ShowIccid);
        self.ask(GetImei);
        self.ask(GetOperatorInfo);
        self.ask(SetManualOperator { plmn: "64304".into() });
        self.ask(SetAutomaticOperator);
        self.ask(GetSystemInfo);
        self.ask(SynchronizeNetworkTime { ntp_server: "pool.ntp.org".into(), timezone: 8, cid: 1 });
        self.ask(Execute);
        self.ask(DownloadToFileSystem { url: "http://x.org/a \"b\"".into(), file_path: "/a".into() });
        self.ask(GetSmsMessageFormat);
        self.ask(SetSmsMessageFormat(SmsMessageFormat::Text));
        self.ask(ReadSms { index: 3 });
    }

    fn response(&mut self, code: ResponseCode) -> String {
        match code {
            ResponseCode::Ok(_) => "done".to_string(),
            ResponseCode::Error(SimError::CmeErr { code }) => format!("failed {}", code),
            ResponseCode::Error(error) => format!("failed {:?}", error),
            ResponseCode::CloseOk(close) => format!("closed {}", close.connection),
            ResponseCode::Iccid(card) => format!("card {} {} {}", card.country, card.issuer, card.account),
            ResponseCode::SignalQuality(signal) => format!("signal {:?} {:?}", signal.signal_strength, signal.signal_quality),
            ResponseCode::SystemInfo(info) => format!("system {:?} {:?}", info.system_mode, info.operation_mode),
            ResponseCode::OperatorInfo(info) => {
                self.operator = info.operator_name.to_string();
                format!("operator {:?} {:?}", info.mode, info.format)
            }
            ResponseCode::NetworkTime(time) => format!("time {:?} {}", time.code, time.time.as_deref().unwrap_or("unknown")),
            ResponseCode::DownloadInfo(mut info) => format!("download {:?}", info.status_code.success()),
            ResponseCode::Imei(imei) => format!("imei {}", imei.imei),
            ResponseCode::SmsMessageFormat(format) => format!("format {:?}", format),
            ResponseCode::SmsMessage(sms) => format!("message of {} {:?}", sms.sender, sms.message),
            _ => "another response".to_string(),
        }
    }

    fn unsolicited(&mut self, urc: Urc) -> String {
        match urc {
            Urc::GnssReport(GnssReport::Fix(fix)) => format!("{:?}", fix),
            Urc::NetworkRegistration(registration) => format!("{:?} with {}", registration, self.operator),
            other => format!("{:?}", other),
        }
    }

    fn hear(&mut self, line: &str) {
        let note = if let Ok(code) = ResponseCode::from_line(line) {
            self.response(code)
        } else if let Ok(urc) = Urc::from_line(line) {
            self.unsolicited(urc)
        } else {
            "nothing".to_string()
        };
        self.notes.push(format!("{}: {}", line, note));
    }
}

pub fn notes() -> String {
    let mut logger = Logger::default();
    logger.ask_all();
    for line in LINES {
        logger.hear(line);
    }
    logger.notes.join("\n") + "\n"
}
