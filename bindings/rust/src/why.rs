//! Why a connection has failed.

use crate::ffi;
use std::ffi::CStr;
use std::fmt;

/// Why a connection has failed: the rule that the peer broke, the limit that was reached, or what
/// this endpoint did. The text is that of the library.
///
/// ```
/// use belkjoef::{Config, Server, Why};
///
/// let mut server = Server::new(&Config::default())?;
/// assert!(server.take(b"GET / HTTP/1.1\r\n").is_err());
/// assert_eq!(server.why(), Some(Why::BadPreface));
/// # Ok::<(), belkjoef::Error>(())
/// ```
#[derive(Clone, Copy, Debug, PartialEq, Eq, Hash)]
#[non_exhaustive]
pub enum Why {
    /// The connection preface is wrong.
    BadPreface,
    /// A frame is longer than the limit.
    FrameTooLong,
    /// PUSH_PROMISE, though push is disabled.
    PushPromise,
    /// A frame on a stream that its type does not allow.
    WrongStream,
    /// A frame of a length that its type and flags do not allow.
    WrongLength,
    /// Padding longer than the payload leaves room for.
    PaddingTooLong,
    /// The first frame is not SETTINGS.
    FirstFrameNotSettings,
    /// Another frame interrupts a field block.
    BlockInterrupted,
    /// CONTINUATION outside a field block.
    StrayContinuation,
    /// A field block of more than 65,552 octets.
    BlockTooLong,
    /// A field block cannot be decoded.
    BlockNotDecoded,
    /// A frame other than HEADERS or PRIORITY on an idle stream.
    FrameOnIdleStream,
    /// DATA on a closed stream.
    DataOnClosedStream,
    /// HEADERS on a closed stream.
    BlockOnClosedStream,
    /// HEADERS on an idle stream that the peer may not open.
    BlockOnIdleNumber,
    /// DATA exceeds the connection's window.
    DataAboveConnectionWindow,
    /// DATA exceeds the stream's window.
    DataAboveStreamWindow,
    /// WINDOW_UPDATE of 0 on the connection.
    ZeroConnectionIncrement,
    /// The connection's window exceeds 2^31 - 1.
    ConnectionWindowTooLarge,
    /// ENABLE_PUSH is above 1, or 1 from a server.
    BadEnablePush,
    /// INITIAL_WINDOW_SIZE is above 2^31 - 1.
    BadInitialWindow,
    /// MAX_FRAME_SIZE is not from 16,384 to 2^24 - 1.
    BadMaxFrameSize,
    /// INITIAL_WINDOW_SIZE brings a stream's window above 2^31 - 1.
    ShiftTooLarge,
    /// 1,001 streams would have been reset.
    TooManyResets,
    /// Replies exceed 262,144 octets of waiting output.
    TooMuchOutput,
    /// Out of memory.
    OutOfMemory,
    /// `fail` was called.
    EndedAbove,
    /// A reason unknown to these bindings, by its number in `belkjoef.h`.
    Other(u32),
}

/// The reasons, in the order of their numbers from 1.
const ALL: [Why; 27] = [
    Why::BadPreface,
    Why::FrameTooLong,
    Why::PushPromise,
    Why::WrongStream,
    Why::WrongLength,
    Why::PaddingTooLong,
    Why::FirstFrameNotSettings,
    Why::BlockInterrupted,
    Why::StrayContinuation,
    Why::BlockTooLong,
    Why::BlockNotDecoded,
    Why::FrameOnIdleStream,
    Why::DataOnClosedStream,
    Why::BlockOnClosedStream,
    Why::BlockOnIdleNumber,
    Why::DataAboveConnectionWindow,
    Why::DataAboveStreamWindow,
    Why::ZeroConnectionIncrement,
    Why::ConnectionWindowTooLarge,
    Why::BadEnablePush,
    Why::BadInitialWindow,
    Why::BadMaxFrameSize,
    Why::ShiftTooLarge,
    Why::TooManyResets,
    Why::TooMuchOutput,
    Why::OutOfMemory,
    Why::EndedAbove,
];

impl Why {
    pub(crate) fn from_number(number: u32) -> Why {
        let place = usize::try_from(number).ok().and_then(|number| number.checked_sub(1));
        place.and_then(|place| ALL.get(place)).copied().unwrap_or(Why::Other(number))
    }

    fn number(self) -> u32 {
        match self {
            Why::Other(number) => number,
            _ => (1..).zip(ALL).find(|(_, why)| *why == self).map_or(0, |(number, _)| number),
        }
    }
}

impl fmt::Display for Why {
    fn fmt(&self, f: &mut fmt::Formatter<'_>) -> fmt::Result {
        let mut text = c"".as_ptr();
        // SAFETY: the function writes one pointer: the address of a text that ends with a zero
        // octet and is never freed.
        let text = unsafe {
            ffi::bj_why_text(self.number(), &mut text);
            CStr::from_ptr(text)
        };
        f.write_str(text.to_str().unwrap_or("unknown reason"))
    }
}
