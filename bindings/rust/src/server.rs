//! The server endpoint.

use crate::error::check;
use crate::{ffi, Config, End, Error, Field};

/// The role of a server.
#[derive(Debug)]
pub enum AsServer {}

/// The server of one connection.
///
/// This one answers every request of a connection with the same text:
///
/// ```no_run
/// use belkjoef::{Config, Event, Field, Server};
/// use std::io::Read;
/// use std::net::TcpListener;
///
/// fn main() -> std::io::Result<()> {
///     let (mut stream, _) = TcpListener::bind("127.0.0.1:8080")?.accept()?;
///     let mut server = Server::new(&Config::default())?;
///     let head = [Field::new(":status", "200"), Field::new("content-length", "6")];
///     let mut piece = [0; 16_384];
///     loop {
///         server.write_out(&mut stream)?;
///         let count = stream.read(&mut piece)?;
///         if count == 0 {
///             return Ok(());
///         }
///         let mut rest = &piece[..count];
///         loop {
///             let taken = server.take(rest)?;
///             rest = &rest[taken.used..];
///             match taken.event {
///                 Some(Event::Head { stream, .. }) => server.respond(stream, &head, b"hello\n")?,
///                 Some(_) => {}
///                 None if rest.is_empty() => break,
///                 None => {}
///             }
///         }
///         server.release_all()?;
///     }
/// }
/// ```
///
/// A server makes no requests:
///
/// ```compile_fail,E0599
/// # use belkjoef::{Config, Server};
/// Server::new(&Config::default()).unwrap().request(&[], b"");
/// ```
///
/// It cannot be shared between threads:
///
/// ```compile_fail,E0277
/// # use belkjoef::{Config, Server};
/// let server = Server::new(&Config::default()).unwrap();
/// std::thread::scope(|scope| {
///     scope.spawn(|| server.is_full());
/// });
/// ```
pub type Server = End<AsServer>;

impl Server {
    /// Creates a server. Its SETTINGS are queued as output.
    ///
    /// # Errors
    ///
    /// `BadConfig`. `Memory`.
    pub fn new(config: &Config) -> Result<Server, Error> {
        End::make(config, ffi::bj_server_new)
    }

    /// Responds to the request on a stream: the head, `:status` first, is queued as output, and a
    /// copy of the body is kept for [`pump`](End::pump). The request need not be complete.
    ///
    /// # Errors
    ///
    /// `Memory`. `NotAsked`. `Answered`. `BadMessage`. `Closed`. `OutputFull`. `ListTooLarge`.
    pub fn respond(&mut self, stream: u32, head: &[Field<'_>], body: &[u8]) -> Result<(), Error> {
        // SAFETY: the pointers point to the place, that many fields and that many octets.
        check(unsafe {
            let (fields, octets) = (head.as_ptr(), body.as_ptr());
            ffi::bj_respond(self.place(), stream, fields, head.len(), octets, body.len())
        })
    }

    /// Begins a response: the head is sent; the body and its end, or trailers, follow. The last
    /// head is kept, if it has at most 64 fields and 8,192 octets, and only names and values that
    /// differ at the same index are copied.
    ///
    /// # Errors
    ///
    /// As for [`respond`](Server::respond).
    pub fn begin(&mut self, stream: u32, head: &[Field<'_>]) -> Result<(), Error> {
        // SAFETY: the pointers point to the place and that many fields.
        check(unsafe { ffi::bj_begin_response(self.place(), stream, head.as_ptr(), head.len()) })
    }
}
