use crate::at_command::unsolicited::Urc;
use crate::at_command::ResponseCode;
use crate::raw;
use crate::refusal::Refusal;
use crate::values;

/// What a line is, whichever reader takes it: a response or an unsolicited code.
#[derive(Debug, Clone, Copy, PartialEq)]
#[non_exhaustive]
pub enum Line<'a> {
    /// A response to a command.
    Response(ResponseCode<'a>),
    /// A code that the modem sends by itself.
    Unsolicited(Urc),
}

impl<'a> Line<'a> {
    /// Reads a line without its CR LF. Its bytes may be any: refused are, in this order, more than 256 bytes (1), what is not UTF-8 (2), a text that is too
    /// long (4) or a fix without a date that exists (13), and what no reader takes (3).
    ///
    /// ```
    /// use sim7000::{Line, Refusal, ResponseCode};
    ///
    /// match Line::from_line(b"+COPS: 0,0,\"Tele2\",7") {
    ///     Ok(Line::Response(ResponseCode::OperatorInfo(info))) => assert_eq!(info.operator_name, "Tele2"),
    ///     other => panic!("{:?}", other),
    /// }
    /// assert_eq!(Line::from_line(b"+COPS: \xff"), Err(Refusal::LINE_NOT_UTF8));
    /// ```
    pub fn from_line(line: &'a [u8]) -> Result<Self, Refusal> {
        let values = values::read(line)?;
        if let Some(code) = ResponseCode::of(&values, line) {
            return Ok(Line::Response(code));
        }
        Urc::of(&values).map(Line::Unsolicited).ok_or(Refusal::NOT_ACCEPTED)
    }
}

/// Which reader takes the line, without what it says: 1 to 13 for the responses in the order of [`ResponseCode`], 14 for
/// [`GnssReport`](crate::GnssReport), 15 for [`NetworkRegistration`](crate::NetworkRegistration). Refuses as [`Line::from_line`] does.
pub fn sort_line(line: &[u8]) -> Result<u8, Refusal> {
    // The pointer goes with the slice's length.
    let answer = unsafe { raw::sim7000_sort_line(line.as_ptr(), line.len()) };
    match answer.checked_sub(128) {
        None => Ok(answer),
        Some(number) => Err(Refusal(number)),
    }
}
