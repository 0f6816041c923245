//! Events of an endpoint.

use crate::{Code, Fields};

/// The result of [`take`](crate::End::take).
#[derive(Clone, Copy, Debug, PartialEq, Eq)]
pub struct Taken<'a> {
    /// How many octets were used. Pass the unused ones again.
    pub used: usize,
    /// The event, if there is one.
    pub event: Option<Event<'a>>,
    /// The value that [`set_user`](crate::End::set_user) attached to the stream of the event, or 0.
    pub user: usize,
}

/// An event. Fields and octets are lent until the next call of the endpoint.
#[derive(Clone, Copy, Debug, PartialEq, Eq)]
#[non_exhaustive]
pub enum Event<'a> {
    /// The head of an interim response (1xx).
    Interim {
        /// Its stream.
        stream: u32,
        /// Its fields.
        fields: Fields<'a>,
    },
    /// The head of a message.
    Head {
        /// Its stream.
        stream: u32,
        /// Its fields, the pseudo-header fields first.
        fields: Fields<'a>,
        /// Whether the message is complete.
        end: bool,
    },
    /// Octets of a body, possibly none.
    Body {
        /// Its stream.
        stream: u32,
        /// The octets, for which credit is owed to the peer until they are released.
        octets: &'a [u8],
        /// Whether the message is complete.
        end: bool,
    },
    /// Trailers, which end a message.
    Trailers {
        /// Its stream.
        stream: u32,
        /// Its fields.
        fields: Fields<'a>,
    },
    /// A stream was reset before its messages were complete.
    Reset {
        /// The stream.
        stream: u32,
        /// The error code.
        code: Code,
        /// Whether this endpoint reset it: for a fault of the peer, such as a malformed message, or
        /// because it takes no more streams.
        ours: bool,
    },
    /// The server did not process this request, and will not: it may be retried on another
    /// connection.
    Unprocessed {
        /// The stream of the request.
        stream: u32,
    },
    /// The peer processes no streams above this one.
    GoAway {
        /// The highest stream that it processes.
        last: u32,
        /// The error code.
        code: Code,
    },
    /// The peer acknowledged the settings of this endpoint.
    Acked,
    /// The peer answered a PING.
    Pong {
        /// The octets of the PING.
        octets: [u8; 8],
    },
}

impl Event<'_> {
    /// The stream of the event.
    pub fn stream(&self) -> Option<u32> {
        match *self {
            Event::Interim { stream, .. }
            | Event::Head { stream, .. }
            | Event::Body { stream, .. }
            | Event::Trailers { stream, .. }
            | Event::Reset { stream, .. }
            | Event::Unprocessed { stream } => Some(stream),
            Event::GoAway { .. } | Event::Acked | Event::Pong { .. } => None,
        }
    }
}
