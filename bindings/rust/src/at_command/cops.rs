//! AT+COPS: the operator of the network.

use crate::at_command::{AtRequest, GenericOk};
use crate::refusal::Refusal;
use crate::request::Request;
use crate::values::{reader, Answer, Lent, Values};

/// `AT+COPS?`: asks for the operator.
#[derive(Debug, Clone, Copy, PartialEq, Eq)]
pub struct GetOperatorInfo;

/// The operator that the modem uses, or was told to use.
#[derive(Debug, Clone, Copy, PartialEq, Eq)]
pub struct OperatorInfo<'a> {
    /// How it was chosen.
    pub mode: OperatorMode,
    /// How its name is written; [`Long`](OperatorFormat::Long) where the line does not say.
    pub format: OperatorFormat,
    /// Its name without quotes; empty where the line has none.
    pub operator_name: &'a str,
}

/// How the operator is chosen, with the line's number for it.
#[repr(u8)]
#[derive(Debug, Clone, Copy, PartialEq, Eq)]
pub enum OperatorMode {
    /// By the modem.
    Automatic = 0,
    /// By a command.
    Manual = 1,
    /// Not at all: the modem has left the network.
    ManualDeregister = 2,
    /// By a command, and by the modem where that fails.
    ManualAutomatic = 4,
}

/// How an operator's name is written, with the line's number for it.
#[repr(u8)]
#[derive(Debug, Clone, Copy, PartialEq, Eq)]
pub enum OperatorFormat {
    /// In full.
    Long = 0,
    /// Abbreviated.
    Short = 1,
    /// As its number.
    Numeric = 2,
}

impl<'l> AtRequest<'l> for GetOperatorInfo {
    type Response = (OperatorInfo<'l>, GenericOk);
    fn encode<'o>(&self, out: &'o mut [u8]) -> Result<&'o [u8], Refusal> {
        Request::from(*self).encode(out)
    }
}

/// `AT+COPS=1,2,"<plmn>"`: chooses an operator by its number, and no other if it cannot be had.
#[derive(Debug, Clone, Copy, PartialEq, Eq)]
pub struct SetManualOperator<'a> {
    /// Country and network as five or six digits; any other text is refused with 12, a longer one with 5.
    pub plmn: &'a str,
}

impl<'l> AtRequest<'l> for SetManualOperator<'_> {
    type Response = GenericOk;
    fn encode<'o>(&self, out: &'o mut [u8]) -> Result<&'o [u8], Refusal> {
        Request::from(*self).encode(out)
    }
}

/// `AT+COPS=0`: leaves the choice to the modem.
#[derive(Debug, Clone, Copy, PartialEq, Eq)]
pub struct SetAutomaticOperator;

impl<'l> AtRequest<'l> for SetAutomaticOperator {
    type Response = GenericOk;
    fn encode<'o>(&self, out: &'o mut [u8]) -> Result<&'o [u8], Refusal> {
        Request::from(*self).encode(out)
    }
}

impl<'a> Answer<'a> for OperatorInfo<'a> {
    const READER: u64 = reader::OPERATOR_INFO;
    fn of(v: &Values, line: impl Lent<'a>) -> Self {
        let mode = match v[1] {
            0 => OperatorMode::Automatic,
            1 => OperatorMode::Manual,
            2 => OperatorMode::ManualDeregister,
            _ => OperatorMode::ManualAutomatic,
        };
        let format = match v[2] {
            0 => OperatorFormat::Long,
            1 => OperatorFormat::Short,
            _ => OperatorFormat::Numeric,
        };
        // a name that is not in the line is the fallback text, which is empty
        OperatorInfo { mode, format, operator_name: if v[3] == 1 { "" } else { line.part(v[4], v[5]) } }
    }
}

from_line! { OperatorInfo<'a> "1 or 3" }
