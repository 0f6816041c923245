//! Errors and error codes.

use crate::ffi;
use std::ffi::CStr;
use std::fmt;
use std::io;
use std::os::raw::c_int;

/// An error code of a stream or of a connection (RFC 9113, section 7).
#[derive(Clone, Copy, Debug, PartialEq, Eq, Hash)]
pub struct Code(pub u32);

impl Code {
    /// NO_ERROR.
    pub const NO_ERROR: Code = Code(0);
    /// PROTOCOL_ERROR.
    pub const PROTOCOL_ERROR: Code = Code(1);
    /// INTERNAL_ERROR.
    pub const INTERNAL_ERROR: Code = Code(2);
    /// FLOW_CONTROL_ERROR.
    pub const FLOW_CONTROL_ERROR: Code = Code(3);
    /// SETTINGS_TIMEOUT.
    pub const SETTINGS_TIMEOUT: Code = Code(4);
    /// STREAM_CLOSED.
    pub const STREAM_CLOSED: Code = Code(5);
    /// FRAME_SIZE_ERROR.
    pub const FRAME_SIZE_ERROR: Code = Code(6);
    /// REFUSED_STREAM.
    pub const REFUSED_STREAM: Code = Code(7);
    /// CANCEL.
    pub const CANCEL: Code = Code(8);
    /// COMPRESSION_ERROR.
    pub const COMPRESSION_ERROR: Code = Code(9);
    /// CONNECT_ERROR.
    pub const CONNECT_ERROR: Code = Code(10);
    /// ENHANCE_YOUR_CALM.
    pub const ENHANCE_YOUR_CALM: Code = Code(11);
    /// INADEQUATE_SECURITY.
    pub const INADEQUATE_SECURITY: Code = Code(12);
    /// HTTP_1_1_REQUIRED.
    pub const HTTP_1_1_REQUIRED: Code = Code(13);

    const NAMES: [&'static str; 14] = [
        "NO_ERROR",
        "PROTOCOL_ERROR",
        "INTERNAL_ERROR",
        "FLOW_CONTROL_ERROR",
        "SETTINGS_TIMEOUT",
        "STREAM_CLOSED",
        "FRAME_SIZE_ERROR",
        "REFUSED_STREAM",
        "CANCEL",
        "COMPRESSION_ERROR",
        "CONNECT_ERROR",
        "ENHANCE_YOUR_CALM",
        "INADEQUATE_SECURITY",
        "HTTP_1_1_REQUIRED",
    ];

    /// Its name, where the RFC has one.
    ///
    /// ```
    /// use belkjoef::Code;
    ///
    /// assert_eq!(Code(8).name(), Some("CANCEL"));
    /// assert_eq!(Code(14).name(), None);
    /// ```
    pub fn name(self) -> Option<&'static str> {
        usize::try_from(self.0).ok().and_then(|number| Self::NAMES.get(number)).copied()
    }
}

impl fmt::Display for Code {
    fn fmt(&self, f: &mut fmt::Formatter<'_>) -> fmt::Result {
        match self.name() {
            Some(name) => f.write_str(name),
            None => write!(f, "{:#x}", self.0),
        }
    }
}

/// A value of a [`Config`](crate::Config) that is out of range.
#[derive(Clone, Copy, Debug, PartialEq, Eq, Hash)]
pub enum BadConfig {
    /// The header table limit is above 65,536.
    TableLimit,
    /// The initial window is not from 1 to 2^31 - 1.
    InitialWindow,
    /// The stream limit is not from 100 to 1,000.
    MaxStreams,
    /// The frame size limit is not from 16,384 to 1,048,576.
    MaxFrame,
}

/// A rule that a message breaks, the first of several (RFC 9113, section 8).
#[derive(Clone, Copy, Debug, PartialEq, Eq, Hash)]
pub enum Rule {
    /// A field name is empty or has a forbidden octet.
    BadName,
    /// A field value has a forbidden octet, or a blank at either end.
    BadValue,
    /// A pseudo-header field after a regular field, or in trailers.
    PseudoPlace,
    /// A pseudo-header field that this message may not have.
    PseudoUnknown,
    /// A pseudo-header field occurs twice.
    PseudoTwice,
    /// A required pseudo-header field is missing.
    PseudoMissing,
    /// The method is not a token, or is CONNECT.
    BadMethod,
    /// The path neither begins with `/` nor is `*` with OPTIONS.
    BadPath,
    /// The status is not valid here.
    BadStatus,
    /// A connection-specific field.
    ConnectionField,
    /// `content-length` is invalid, or not the length of the body.
    BadLength,
    /// The parts of the message are out of order.
    BadOrder,
}

/// Why a call was refused, or failed. The text is that of the library.
///
/// Unless documented otherwise, an error leaves everything unchanged.
///
/// ```
/// use belkjoef::{Client, Config, Error, Field, Rule};
///
/// let mut client = Client::new(&Config::default())?;
/// let head = [Field::new(":method", "GET"), Field::new(":scheme", "http")];
/// let error = client.request(&head, b"").unwrap_err();
/// assert_eq!(error, Error::BadMessage(Rule::PseudoMissing));
/// assert_eq!(error.to_string(), "M6 PseudoMissing: a required pseudo-header field is missing");
/// # Ok::<(), Error>(())
/// ```
#[derive(Clone, Copy, Debug, PartialEq, Eq, Hash)]
#[non_exhaustive]
pub enum Error {
    /// A value of a `Config` is out of range.
    BadConfig(BadConfig),
    /// The connection fails, or has failed, with this code. GOAWAY is queued as output: write it,
    /// and close the transport. INTERNAL_ERROR means out of memory, or that [`End::fail`] was
    /// called with it: see [`End::why`].
    ///
    /// [`End::fail`]: crate::End::fail
    /// [`End::why`]: crate::End::why
    Failed(Code),
    /// Unknown error code.
    BadCode,
    /// The connection has failed.
    Closed,
    /// The stream is idle or closed.
    NoSuchStream,
    /// END_STREAM was already sent on the stream.
    Ended,
    /// The peer allows no more concurrent streams.
    TooManyStreams,
    /// No stream number is left.
    StreamsExhausted,
    /// GOAWAY was sent or received.
    GoingAway,
    /// 65,536 octets of output or more are waiting: write, and retry.
    OutputFull,
    /// The last PING is not answered yet.
    PingWaits,
    /// 1,000 streams were already reset by this endpoint.
    TooManyResets,
    /// The field list is larger than 65,536 octets, counting 32 extra for each field.
    ListTooLarge,
    /// Nothing was released, or more than is owed on the stream.
    NotOwed,
    /// Out of memory.
    Memory,
    /// The last SETTINGS are not acknowledged yet.
    SettingsWait,
    /// A window is widened by nothing, or to more than 2^31 - 1 octets.
    WindowTooLarge,
    /// The message breaks a rule.
    BadMessage(Rule),
    /// The stream has no request to answer, or no open message.
    NotAsked,
    /// The request was answered already, or an answer was begun.
    Answered,
    /// The field block cannot be decoded ([`Decoder`](crate::Decoder)).
    Compression,
    /// An earlier block failed.
    DecoderFailed,
    /// An error unknown to these bindings, by its number in `belkjoef.h`.
    Other(i32),
}

/// The errors that have one number, with that number; `Failed` has that of `bj_take`.
const NUMBERS: [(c_int, Error); 35] = [
    (-7, Error::BadCode),
    (-11, Error::BadConfig(BadConfig::TableLimit)),
    (-12, Error::BadConfig(BadConfig::InitialWindow)),
    (-13, Error::BadConfig(BadConfig::MaxStreams)),
    (-14, Error::BadConfig(BadConfig::MaxFrame)),
    (-21, Error::Closed),
    (-22, Error::NoSuchStream),
    (-23, Error::Ended),
    (-24, Error::TooManyStreams),
    (-25, Error::StreamsExhausted),
    (-26, Error::GoingAway),
    (-27, Error::OutputFull),
    (-28, Error::PingWaits),
    (-29, Error::TooManyResets),
    (-30, Error::ListTooLarge),
    (-31, Error::NotOwed),
    (-32, Error::Memory),
    (-33, Error::SettingsWait),
    (-34, Error::WindowTooLarge),
    (-41, Error::BadMessage(Rule::BadName)),
    (-42, Error::BadMessage(Rule::BadValue)),
    (-43, Error::BadMessage(Rule::PseudoPlace)),
    (-44, Error::BadMessage(Rule::PseudoUnknown)),
    (-45, Error::BadMessage(Rule::PseudoTwice)),
    (-46, Error::BadMessage(Rule::PseudoMissing)),
    (-47, Error::BadMessage(Rule::BadMethod)),
    (-48, Error::BadMessage(Rule::BadPath)),
    (-49, Error::BadMessage(Rule::BadStatus)),
    (-50, Error::BadMessage(Rule::ConnectionField)),
    (-51, Error::BadMessage(Rule::BadLength)),
    (-52, Error::BadMessage(Rule::BadOrder)),
    (-61, Error::NotAsked),
    (-62, Error::Answered),
    (-71, Error::Compression),
    (-72, Error::DecoderFailed),
];

impl Error {
    pub(crate) fn from_number(number: c_int) -> Error {
        let found = NUMBERS.iter().find(|(known, _)| *known == number);
        found.map_or(Error::Other(number), |(_, error)| *error)
    }

    fn number(self) -> c_int {
        match self {
            Error::Failed(_) => ffi::FAILED,
            Error::Other(number) => number,
            _ => NUMBERS.iter().find(|(_, error)| *error == self).map_or(ffi::NONE, |(n, _)| *n),
        }
    }

    fn text(self) -> &'static str {
        let mut text = c"".as_ptr();
        // SAFETY: the function writes one pointer: the address of a text that ends with a zero
        // octet and is never freed.
        let text = unsafe {
            ffi::bj_error_text(self.number(), &mut text);
            CStr::from_ptr(text)
        };
        text.to_str().unwrap_or("unknown error")
    }
}

impl fmt::Display for Error {
    fn fmt(&self, f: &mut fmt::Formatter<'_>) -> fmt::Result {
        match self {
            Error::Failed(code) => write!(f, "{} with {code}", self.text()),
            Error::Other(number) => write!(f, "{} ({number})", self.text()),
            _ => f.write_str(self.text()),
        }
    }
}

impl std::error::Error for Error {}

impl From<Error> for io::Error {
    fn from(error: Error) -> io::Error {
        let kind = match error {
            Error::BadConfig(_) | Error::BadMessage(_) => io::ErrorKind::InvalidInput,
            Error::Failed(_) => io::ErrorKind::InvalidData,
            Error::Memory => io::ErrorKind::OutOfMemory,
            Error::OutputFull => io::ErrorKind::WouldBlock,
            _ => io::ErrorKind::Other,
        };
        io::Error::new(kind, error)
    }
}

pub(crate) fn check(answer: c_int) -> Result<(), Error> {
    match answer {
        ffi::OK => Ok(()),
        number => Err(Error::from_number(number)),
    }
}
