//! The client endpoint.

use crate::error::check;
use crate::{ffi, Config, End, Error, Field};

/// The role of a client.
#[derive(Debug)]
pub enum AsClient {}

/// The client of one connection.
///
/// This one fetches a page:
///
/// ```no_run
/// use belkjoef::{Client, Config, Event, Field};
/// use std::io::{Read, Write};
/// use std::net::TcpStream;
///
/// fn main() -> std::io::Result<()> {
///     let mut stream = TcpStream::connect("127.0.0.1:8080")?;
///     let mut client = Client::new(&Config::default())?;
///     let head = [
///         Field::new(":method", "GET"),
///         Field::new(":scheme", "http"),
///         Field::new(":authority", "127.0.0.1:8080"),
///         Field::new(":path", "/"),
///     ];
///     let page = client.request(&head, b"")?;
///     let mut piece = [0; 16_384];
///     let mut is_over = false;
///     while !is_over {
///         client.write_out(&mut stream)?;
///         let count = stream.read(&mut piece)?;
///         is_over = count == 0;
///         let mut rest = &piece[..count];
///         loop {
///             let taken = client.take(rest)?;
///             rest = &rest[taken.used..];
///             match taken.event {
///                 Some(Event::Body { octets, end, .. }) => {
///                     std::io::stdout().write_all(octets)?;
///                     is_over = end;
///                 }
///                 Some(Event::Head { end, .. }) => is_over = end,
///                 Some(event) => is_over = event.stream() == Some(page),
///                 None if rest.is_empty() => break,
///                 None => {}
///             }
///         }
///         client.release_all()?;
///     }
///     client.go_away()?;
///     client.write_out(&mut stream)
/// }
/// ```
///
/// A client sends no responses:
///
/// ```compile_fail,E0599
/// # use belkjoef::{Client, Config};
/// Client::new(&Config::default()).unwrap().respond(1, &[], b"");
/// ```
pub type Client = End<AsClient>;

impl Client {
    /// Creates a client. Its connection preface is queued as output.
    ///
    /// # Errors
    ///
    /// `BadConfig`. `Memory`.
    pub fn new(config: &Config) -> Result<Client, Error> {
        End::make(config, ffi::bj_client_new)
    }

    /// Makes a request, and returns its stream: 1, 3, 5 and so on. The head, the pseudo-header
    /// fields first, is queued as output, and a copy of the body is kept for [`pump`](End::pump).
    ///
    /// # Errors
    ///
    /// `Memory`. `BadMessage`. `Closed`. `TooManyStreams`. `StreamsExhausted`. `GoingAway`.
    /// `OutputFull`. `ListTooLarge`.
    pub fn request(&mut self, head: &[Field<'_>], body: &[u8]) -> Result<u32, Error> {
        let mut stream = 0;
        // SAFETY: the pointers point to the place, that many fields, that many octets and a
        // number.
        check(unsafe {
            let (fields, octets) = (head.as_ptr(), body.as_ptr());
            ffi::bj_request(self.place(), fields, head.len(), octets, body.len(), &mut stream)
        })?;
        Ok(stream)
    }

    /// Begins a request, and returns its stream: the head is sent; the body and its end, or
    /// trailers, follow. The last head is kept, if it has at most 64 fields and 8,192 octets, and
    /// only names and values that differ at the same index are copied.
    ///
    /// # Errors
    ///
    /// As for [`request`](Client::request).
    pub fn begin(&mut self, head: &[Field<'_>]) -> Result<u32, Error> {
        let mut stream = 0;
        // SAFETY: the pointers point to the place, that many fields and a number.
        check(unsafe {
            ffi::bj_begin_request(self.place(), head.as_ptr(), head.len(), &mut stream)
        })?;
        Ok(stream)
    }
}
