//! AT+CPSI: the cell that the modem uses.

use crate::at_command::{AtRequest, GenericOk};
use crate::refusal::Refusal;
use crate::request::Request;
use crate::values::{reader, Answer, Lent, Values};

/// `AT+CPSI?`: asks for the system's state.
#[derive(Debug, Clone, Copy, PartialEq, Eq)]
pub struct GetSystemInfo;

impl<'l> AtRequest<'l> for GetSystemInfo {
    type Response = (SystemInfo, GenericOk);
    fn encode<'o>(&self, out: &'o mut [u8]) -> Result<&'o [u8], Refusal> {
        Request::from(*self).encode(out)
    }
}

/// Which kind of network serves the modem.
#[derive(Debug, Clone, Copy, PartialEq, Eq)]
pub enum SystemMode {
    /// None: `NO SERVICE`.
    NoService,
    /// `GSM`.
    Gsm,
    /// `LTE CAT-M1`.
    LteCatM1,
    /// `LTE NB-IOT`.
    LteNbIot,
}

/// What the modem is at.
#[derive(Debug, Clone, Copy, PartialEq, Eq)]
pub enum OperationMode {
    /// `Online`.
    Online,
    /// `Offline`.
    Offline,
    /// `Factory Test Mode`.
    FactoryTest,
    /// `Reset`.
    Reset,
    /// `Low Power Mode`.
    LowPower,
}

/// The system's state. The fields of the cell are not kept.
#[derive(Debug, Clone, Copy, PartialEq, Eq)]
pub struct SystemInfo {
    /// The kind of network.
    pub system_mode: SystemMode,
    /// What the modem is at.
    pub operation_mode: OperationMode,
}

impl<'a> Answer<'a> for SystemInfo {
    const READER: u64 = reader::SYSTEM_INFO;
    fn of(v: &Values, _: impl Lent<'a>) -> Self {
        let system_mode = match v[1] {
            0 => SystemMode::NoService,
            1 => SystemMode::Gsm,
            2 => SystemMode::LteCatM1,
            _ => SystemMode::LteNbIot,
        };
        let operation_mode = match v[2] {
            0 => OperationMode::Online,
            1 => OperationMode::Offline,
            2 => OperationMode::FactoryTest,
            3 => OperationMode::Reset,
            _ => OperationMode::LowPower,
        };
        SystemInfo { system_mode, operation_mode }
    }
}

from_line! { SystemInfo "1 or 3" }
