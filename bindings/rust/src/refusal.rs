use core::fmt;

/// Why a call refuses: a number of documents 01 and 02. Each has a name here, which stands in patterns too, and later requests add some.
///
/// ```
/// use sim7000::{Line, Refusal};
///
/// match Line::from_line(b"+UGNSINF: ?") {
///     Err(Refusal::NO_SUCH_DATE) => panic!("a fix that cannot be dated"),
///     Err(refusal) => assert_eq!((refusal, refusal.number()), (Refusal::NOT_ACCEPTED, 3)),
///     Ok(_) => panic!("no reader takes it"),
/// }
/// ```
#[derive(Debug, Clone, Copy, PartialEq, Eq, PartialOrd, Ord, Hash)]
pub struct Refusal(
    /// The number itself; no call answers 0.
    pub u8,
);

impl Refusal {
    /// 1: a line of more than 256 bytes.
    pub const LINE_TOO_LONG: Refusal = Refusal(1);
    /// 2: a line that is not UTF-8, which a `&str` always is.
    pub const LINE_NOT_UTF8: Refusal = Refusal(2);
    /// 3: none of the readers that the call tries accepts the line, and no other number applies.
    pub const NOT_ACCEPTED: Refusal = Refusal(3);
    /// 4: a text in an otherwise good line is too long: the sender of +CMGR above 20 bytes, the time of +CNTP above 32.
    pub const TEXT_IN_LINE_LONG: Refusal = Refusal(4);
    /// 5: a request text is too long: ntp_server and url above 64 bytes, file_path above 32, plmn above 6.
    pub const TEXT_TOO_LONG: Refusal = Refusal(5);
    /// 6: a request text has a byte outside 32 to 126.
    pub const TEXT_NOT_PLAIN: Refusal = Refusal(6);
    /// 7: the output buffer is shorter than the command.
    pub const OUT_TOO_SHORT: Refusal = Refusal(7);
    /// 8: an open, while a command is open.
    pub const COMMAND_OPEN: Refusal = Refusal(8);
    /// 9: an open, while an unfinished line is held or being dropped.
    pub const LINE_UNFINISHED: Refusal = Refusal(9);
    /// 10: a feed with a text buffer under 256 bytes.
    pub const TEXT_BUFFER_SHORT: Refusal = Refusal(10);
    /// 12: a plmn that is not five or six digits.
    pub const NOT_OPERATOR_NUMBER: Refusal = Refusal(12);
    /// 13: a satellite fix whose date is none of 1980 to 2099.
    pub const NO_SUCH_DATE: Refusal = Refusal(13);

    /// The number itself.
    pub const fn number(self) -> u8 {
        self.0
    }

    /// 0 is no refusal.
    pub(crate) fn of(number: u8) -> Option<Refusal> {
        (number != 0).then_some(Refusal(number))
    }
}

impl fmt::Display for Refusal {
    fn fmt(&self, f: &mut fmt::Formatter<'_>) -> fmt::Result {
        let why = match *self {
            Refusal::LINE_TOO_LONG => "a line of more than 256 bytes",
            Refusal::LINE_NOT_UTF8 => "a line that is not UTF-8",
            Refusal::NOT_ACCEPTED => "nothing accepts it",
            Refusal::TEXT_IN_LINE_LONG => "a text in the line is too long",
            Refusal::TEXT_TOO_LONG => "a request text is too long",
            Refusal::TEXT_NOT_PLAIN => "a request text has a byte outside 32 to 126",
            Refusal::OUT_TOO_SHORT => "the output buffer is shorter than the command",
            Refusal::COMMAND_OPEN => "a command is open",
            Refusal::LINE_UNFINISHED => "an unfinished line is held or being dropped",
            Refusal::TEXT_BUFFER_SHORT => "a text buffer under 256 bytes",
            Refusal::NOT_OPERATOR_NUMBER => "an operator number is not five or six digits",
            Refusal::NO_SUCH_DATE => "a fix has no date that exists",
            _ => "unknown",
        };
        write!(f, "refused with {}: {}", self.0, why)
    }
}

#[cfg(has_core_error)]
impl core::error::Error for Refusal {}

/// An answer of the archive: 0, or a refusal.
pub(crate) fn accepted(number: u8) -> Result<(), Refusal> {
    Refusal::of(number).map_or(Ok(()), Err)
}
