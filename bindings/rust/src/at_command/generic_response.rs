//! The lines that end a command, and the prompt.

use crate::values::{reader, Answer, Lent, Values};

/// `OK`, or `SHUT OK`.
#[derive(Debug, Clone, Copy, PartialEq, Eq)]
pub struct GenericOk;

/// A line that reports an error.
#[derive(Debug, Clone, Copy, PartialEq, Eq)]
pub enum SimError {
    /// `ERROR`, without a reason.
    Generic,
    /// `+CME ERROR: <code>`: the equipment or the network (TS 27.007).
    CmeErr {
        /// Which error.
        code: u32,
    },
    /// `+CMS ERROR: <code>`: the message service (TS 27.005).
    CmsErr {
        /// Which error.
        code: u32,
    },
}

/// `> `, with which the modem asks for a text.
#[derive(Debug, Clone, Copy, PartialEq, Eq)]
pub struct WritePrompt;

/// `<connection>, CLOSE OK`: a connection is closed.
#[derive(Debug, Clone, Copy, PartialEq, Eq)]
pub struct CloseOk {
    /// Which connection.
    pub connection: usize,
}

impl<'a> Answer<'a> for GenericOk {
    const READER: u64 = reader::GENERIC_OK;
    fn of(_: &Values, _: impl Lent<'a>) -> Self {
        GenericOk
    }
}

impl<'a> Answer<'a> for SimError {
    const READER: u64 = reader::SIM_ERROR;
    fn of(v: &Values, _: impl Lent<'a>) -> Self {
        let code = v[2] as u32;
        match v[1] {
            0 => SimError::Generic,
            1 => SimError::CmeErr { code },
            _ => SimError::CmsErr { code },
        }
    }
}

impl<'a> Answer<'a> for WritePrompt {
    const READER: u64 = reader::WRITE_PROMPT;
    fn of(_: &Values, _: impl Lent<'a>) -> Self {
        WritePrompt
    }
}

impl<'a> Answer<'a> for CloseOk {
    const READER: u64 = reader::CLOSE_OK;
    fn of(v: &Values, _: impl Lent<'a>) -> Self {
        // both have 64 bits
        CloseOk { connection: v[1] as usize }
    }
}

from_line! { GenericOk "1 or 3" }
from_line! { SimError "1 or 3" }
from_line! { WritePrompt "1 or 3" }
from_line! { CloseOk "1 or 3" }
