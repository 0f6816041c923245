//! The two endpoints of an HTTP/2 connection over cleartext (RFC 9113), a [`Server`] and a
//! [`Client`], which do no I/O themselves: bindings to the C library Belkjoef, whose code is
//! proved.
//!
//! An endpoint takes octets and returns octets. The caller runs the loop, once for each piece that
//! was read: [`take`](End::take) until all octets are used and there is no event, answer,
//! [`release_all`](End::release_all), and [`write_out`](End::write_out), the only call that writes.
//! There are no timers.
//!
//! A client and a server joined in memory:
//!
//! ```
//! use belkjoef::{Client, Config, Event, Field, Server};
//!
//! # fn main() -> Result<(), belkjoef::Error> {
//! let mut client = Client::new(&Config::default())?;
//! let mut server = Server::new(&Config::default())?;
//! let head = [
//!     Field::new(":method", "GET"),
//!     Field::new(":scheme", "http"),
//!     Field::new(":authority", "www.example.com"),
//!     Field::new(":path", "/"),
//! ];
//! let asked = client.request(&head, b"")?;
//!
//! let mut octets = [0; 4096];
//! let count = client.put_out(&mut octets)?;
//! let mut rest = &octets[..count];
//! let mut answer = None;
//! loop {
//!     let taken = server.take(rest)?;
//!     rest = &rest[taken.used..];
//!     match taken.event {
//!         Some(Event::Head { stream, fields, .. }) => {
//!             assert_eq!(fields.value(":path"), Some(b"/".as_slice()));
//!             answer = Some(stream);
//!         }
//!         Some(_) => {}
//!         None if rest.is_empty() => break,
//!         None => {}
//!     }
//! }
//! assert_eq!(answer, Some(asked));
//! server.respond(asked, &[Field::new(":status", "204")], b"")?;
//! # Ok(())
//! # }
//! ```
//!
//! # Linking
//!
//! The library is linked statically. It is searched for in the folder that the environment variable
//! `BELKJOEF_LIB_DIR` names, or else with `pkg-config`.
//!
//! # Borrowing
//!
//! An [`Event`] borrows fields and octets from the endpoint, so the endpoint cannot be called while
//! the event is in use. Copy what is needed for longer.
//!
//! # Threads
//!
//! An endpoint can be sent to another thread, but not shared between threads.

mod client;
mod config;
mod end;
mod error;
mod event;
mod ffi;
mod fields;
mod hpack;
mod server;
mod why;

pub use client::{AsClient, Client};
pub use config::{Config, PeerSettings};
pub use end::End;
pub use error::{BadConfig, Code, Error, Rule};
pub use event::{Event, Taken};
pub use fields::{Field, Fields, Iter};
pub use hpack::{Decoder, Encoder};
pub use server::{AsServer, Server};
pub use why::Why;

/// The version of the library: major, minor and patch.
///
/// ```
/// assert_eq!(belkjoef::version().0, 0);
/// ```
pub fn version() -> (u8, u8, u8) {
    // SAFETY: it has no arguments.
    let [_, major, minor, patch] = unsafe { ffi::bj_version() }.to_be_bytes();
    (major, minor, patch)
}
