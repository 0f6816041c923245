//! An endpoint of a connection: what clients and servers share.

use crate::error::check;
use crate::{ffi, Code, Config, Error, Event, Field, Fields, PeerSettings, Rule, Taken, Why};
use std::cell::UnsafeCell;
use std::fmt;
use std::io::{self, IoSlice, Write};
use std::marker::PhantomData;
use std::mem;
use std::os::raw::c_int;
use std::ptr;

/// An endpoint of one connection: a [`Client`](crate::Client) or a [`Server`](crate::Server). It is
/// freed when dropped.
///
/// It can be sent to another thread, but is used by one thread at a time.
pub struct End<Role> {
    /// The object of the library. Readers write it too, and put back what was there. It doesn't
    /// hold its own address, so it can be moved.
    place: UnsafeCell<ffi::End>,
    /// Memory for the fields that are lent; used only while an event lends them.
    fields: Vec<Field<'static>>,
    role: PhantomData<Role>,
}

// SAFETY: the end owns what the place holds, and one thread at a time uses it, since `UnsafeCell`
// keeps the end from being shared. Only a borrower of the end uses the fields.
unsafe impl<Role> Send for End<Role> {}

impl<Role> Drop for End<Role> {
    fn drop(&mut self) {
        // SAFETY: the place is as the library has left it.
        unsafe { ffi::bj_free(self.place.get()) };
    }
}

impl<Role> fmt::Debug for End<Role> {
    fn fmt(&self, f: &mut fmt::Formatter<'_>) -> fmt::Result {
        f.debug_struct("End").field("failed", &self.failed()).finish_non_exhaustive()
    }
}

/// Creates an end with a configuration, or refuses.
type Make = unsafe extern "C" fn(*const ffi::Config, *mut ffi::End) -> c_int;

impl<Role> End<Role> {
    pub(crate) fn make(config: &Config, make: Make) -> Result<Self, Error> {
        let place = UnsafeCell::new(ffi::End { at: ptr::null_mut(), state: 0 });
        // SAFETY: the pointers point to a `bj_config` and a place that is all zero.
        check(unsafe { make(&config.raw(), place.get()) })?;
        Ok(End { place, fields: Vec::new(), role: PhantomData })
    }

    /// The object, for one call. What an end lends borrows the end, so nothing is lent during a
    /// call.
    pub(crate) fn place(&self) -> *mut ffi::End {
        self.place.get()
    }

    fn is(&self, ask: unsafe extern "C" fn(*mut ffi::End) -> c_int) -> bool {
        // SAFETY: the place is as the library has left it.
        unsafe { ask(self.place()) == 1 }
    }

    /// Takes octets that were read, up to the end of one frame, and returns how many were used and
    /// at most one event. Call it again with the unused octets until all are used and there is no
    /// event: an event need not use any octets.
    ///
    /// # Errors
    ///
    /// [`Error::Failed`]: the connection fails, or has failed. GOAWAY is queued as output.
    ///
    /// # Loans
    ///
    /// The event borrows from the endpoint and the octets. The endpoint cannot be used while the
    /// event is:
    ///
    /// ```compile_fail,E0499
    /// # use belkjoef::{Config, Server};
    /// # let mut server = Server::new(&Config::default()).unwrap();
    /// let first = server.take(b"PRI * HTTP/2.0\r\n\r\nSM\r\n\r\n").unwrap();
    /// let second = server.take(b"").unwrap();
    /// println!("{first:?} {second:?}");
    /// ```
    ///
    /// ```compile_fail,E0502
    /// # use belkjoef::{Config, Event, Server};
    /// # let mut server = Server::new(&Config::default()).unwrap();
    /// let taken = server.take(b"PRI * HTTP/2.0\r\n\r\nSM\r\n\r\n").unwrap();
    /// assert!(!server.is_full());
    /// println!("{taken:?}");
    /// ```
    ///
    /// ```compile_fail,E0505
    /// # use belkjoef::{Config, Server};
    /// # let mut server = Server::new(&Config::default()).unwrap();
    /// let taken = server.take(b"PRI * HTTP/2.0\r\n\r\nSM\r\n\r\n").unwrap();
    /// drop(server);
    /// println!("{taken:?}");
    /// ```
    pub fn take<'a>(&'a mut self, octets: &'a [u8]) -> Result<Taken<'a>, Error> {
        let mut event = ffi::Event {
            used: 0,
            kind: 0,
            stream: 0,
            code: 0,
            end: 0,
            ours: 0,
            ping: [0; 8],
            fields: 0,
            octets: octets.as_ptr(),
            length: 0,
            user: 0,
        };
        // SAFETY: the pointers point to the place, that many octets and a `bj_event`.
        let answer =
            unsafe { ffi::bj_take(self.place(), octets.as_ptr(), octets.len(), &mut event) };
        if answer == ffi::FAILED {
            return Err(Error::Failed(Code(event.code)));
        }
        check(answer)?;
        let (used, user) = (event.used, event.user);
        // SAFETY: the event borrows the end and the octets, so no call of the end is made while
        // it is in use; the octets lie in one of the two.
        let body: &'a [u8] = unsafe { ffi::lent(event.octets, event.length) };
        Ok(Taken { used, event: self.event(&event, body), user })
    }

    fn event<'a>(&'a mut self, event: &ffi::Event, octets: &'a [u8]) -> Option<Event<'a>> {
        let (stream, code, end) = (event.stream, Code(event.code), event.end != 0);
        Some(match event.kind {
            ffi::INTERIM => Event::Interim { stream, fields: self.lend_fields(event.fields) },
            ffi::HEAD => Event::Head { stream, fields: self.lend_fields(event.fields), end },
            ffi::BODY => Event::Body { stream, octets, end },
            ffi::TRAILERS => Event::Trailers { stream, fields: self.lend_fields(event.fields) },
            ffi::RESET => Event::Reset { stream, code, ours: event.ours != 0 },
            ffi::UNPROCESSED => Event::Unprocessed { stream },
            ffi::GOAWAY => Event::GoAway { last: stream, code },
            ffi::ACKED => Event::Acked,
            ffi::PONG => Event::Pong { octets: event.ping },
            _ => return None,
        })
    }

    /// Lends the fields that were handed out last, all in one call, since each call ends the loans
    /// of the one before.
    fn lend_fields(&mut self, count: usize) -> Fields<'_> {
        let mut said = 0;
        self.fields.resize(count, Field::new("", ""));
        // SAFETY: the pointers point to the place, that many fields and a number.
        unsafe { ffi::bj_fields(self.place(), 0, self.fields.as_mut_ptr(), count, &mut said) };
        self.fields.truncate(said);
        Fields::new(&self.fields)
    }

    /// Queues DATA of the kept bodies as output, lower streams first, each as far as flow control
    /// allows, until nothing more can be sent or 65,536 octets of output are waiting. Returns how
    /// many octets of bodies were queued.
    ///
    /// # Errors
    ///
    /// `Closed`. `Memory`: what was queued stays queued.
    pub fn pump(&mut self) -> Result<usize, Error> {
        let mut sent = 0;
        // SAFETY: the pointers point to the place and a number.
        check(unsafe { ffi::bj_pump(self.place(), &mut sent) })?;
        Ok(sent)
    }

    /// As [`pump`](End::pump), but in one round-robin pass that queues at most `most` octets of
    /// each stream, so that no long body keeps the others waiting.
    ///
    /// # Errors
    ///
    /// `Closed`. `Memory`: what was queued stays queued.
    pub fn pump_some(&mut self, most: usize) -> Result<usize, Error> {
        let mut sent = 0;
        // SAFETY: the pointers point to the place and a number.
        check(unsafe { ffi::bj_pump_some(self.place(), most, &mut sent) })?;
        Ok(sent)
    }

    /// Sends octets of the body of a message that was begun, and ends the message if `ends` is set
    /// and all of them were sent. Returns how many were sent: as many as flow control allows, at
    /// most 65,536, possibly none. The others are not kept: pass them again once output was written
    /// and [`room`](End::room) is above 0.
    ///
    /// # Errors
    ///
    /// `NotAsked`. `BadMessage(BadLength)`: the body would be longer than content-length, or end
    /// before it. `Closed`. `OutputFull`. `Memory`.
    pub fn send_body(&mut self, stream: u32, octets: &[u8], ends: bool) -> Result<usize, Error> {
        let mut sent = 0;
        // SAFETY: the pointers point to the place, that many octets and a number.
        check(unsafe {
            let (at, length) = (octets.as_ptr(), octets.len());
            ffi::bj_send_body(self.place(), stream, at, length, ends, &mut sent)
        })?;
        Ok(sent)
    }

    /// Sends trailers, which end the message that was begun. Copies are kept, as for a head.
    ///
    /// # Errors
    ///
    /// `Memory`. `NotAsked`. `BadMessage`. `Closed`. `OutputFull`. `ListTooLarge`.
    pub fn send_trailers(&mut self, stream: u32, trailers: &[Field<'_>]) -> Result<(), Error> {
        // SAFETY: the pointers point to the place and that many fields.
        check(unsafe {
            ffi::bj_send_trailers(self.place(), stream, trailers.as_ptr(), trailers.len())
        })
    }

    /// Returns flow-control credit for octets that were handed out on a stream (WINDOW_UPDATE).
    ///
    /// # Errors
    ///
    /// `Closed`. `NoSuchStream`. `OutputFull`. `NotOwed`. `Memory`.
    pub fn release(&mut self, stream: u32, count: u32) -> Result<(), Error> {
        // SAFETY: the place is as the library has left it.
        check(unsafe { ffi::bj_release(self.place(), stream, count) })
    }

    /// Returns all credit that is owed, on all streams. A peer stalls unless this or
    /// [`release`](End::release) is called.
    ///
    /// # Errors
    ///
    /// `Closed`. `OutputFull` or `Memory`: what was released stays released.
    pub fn release_all(&mut self) -> Result<(), Error> {
        // SAFETY: the place is as the library has left it.
        check(unsafe { ffi::bj_release_all(self.place()) })
    }

    /// Lets the peer send `count` octets more on the connection, for good (WINDOW_UPDATE on stream
    /// 0). A connection begins with 65,535 octets, whatever [`Config`](crate::Config) says of
    /// streams, so a peer can send that much per round trip.
    ///
    /// # Errors
    ///
    /// `Closed`. `OutputFull`. `WindowTooLarge`: `count` is 0, or above 2^31 - 1 less
    /// [`granted`](End::granted). `Memory`.
    pub fn widen(&mut self, count: u32) -> Result<(), Error> {
        // SAFETY: the place is as the library has left it.
        check(unsafe { ffi::bj_widen(self.place(), count) })
    }

    /// Resets a stream, and discards what is kept for it.
    ///
    /// # Errors
    ///
    /// `Closed`. `NoSuchStream`. `OutputFull`. `TooManyResets`. `Memory`.
    pub fn reset(&mut self, stream: u32, code: Code) -> Result<(), Error> {
        // SAFETY: the place is as the library has left it.
        check(unsafe { ffi::bj_reset(self.place(), stream, code.0) })
    }

    /// Sends PING; the answer of the peer is [`Event::Pong`].
    ///
    /// # Errors
    ///
    /// `Closed`. `OutputFull`. `PingWaits`. `Memory`.
    pub fn ping(&mut self, octets: [u8; 8]) -> Result<(), Error> {
        // SAFETY: the pointers point to the place and eight octets.
        check(unsafe { ffi::bj_ping(self.place(), octets.as_ptr()) })
    }

    /// Sends GOAWAY, after which the peer opens no further streams.
    ///
    /// # Errors
    ///
    /// `Closed`. `GoingAway`: it was sent already. `OutputFull`. `Memory`.
    pub fn go_away(&mut self) -> Result<(), Error> {
        // SAFETY: the place is as the library has left it.
        check(unsafe { ffi::bj_go_away(self.place()) })
    }

    /// Fails the connection: GOAWAY with the code is the last frame of the output.
    ///
    /// # Errors
    ///
    /// `BadCode`: the code is above 13. `Closed`.
    pub fn fail(&mut self, code: Code) -> Result<(), Error> {
        // SAFETY: the place is as the library has left it.
        check(unsafe { ffi::bj_fail(self.place(), code.0) })
    }

    /// Changes the settings of this endpoint. [`Event::Acked`] reports that the peer acknowledged
    /// them.
    ///
    /// # Errors
    ///
    /// `BadConfig`. `Closed`. `OutputFull`. `SettingsWait`. `Memory`.
    pub fn change_settings(&mut self, config: &Config) -> Result<(), Error> {
        // SAFETY: the pointers point to the place and a `bj_config`.
        check(unsafe { ffi::bj_change_settings(self.place(), &config.raw()) })
    }

    /// Completes the output, and lends its first two parts, in order: both are empty only if no
    /// output is waiting. Pass what was written to [`consume`](End::consume), and call this again.
    ///
    /// # Errors
    ///
    /// `Memory`.
    pub fn waiting(&mut self) -> Result<(&[u8], &[u8]), Error> {
        let mut first = ffi::Span { octets: ptr::null(), length: 0 };
        let mut second = ffi::Span { octets: ptr::null(), length: 0 };
        // SAFETY: the pointers point to the place and two spans. What they lend is valid until the
        // next call of the end, which is borrowed until then.
        unsafe {
            check(ffi::bj_ready(self.place()))?;
            check(ffi::bj_waiting(self.place(), &mut first, &mut second))?;
            Ok((ffi::lent(first.octets, first.length), ffi::lent(second.octets, second.length)))
        }
    }

    /// Removes up to `count` octets, which were written, from the output. Returns how many were
    /// removed.
    ///
    /// # Errors
    ///
    /// `Memory`, but not after [`waiting`](End::waiting) with no other call in between.
    pub fn consume(&mut self, count: usize) -> Result<usize, Error> {
        let mut taken = 0;
        // SAFETY: the pointers point to the place and a number.
        check(unsafe { ffi::bj_consume(self.place(), count, &mut taken) })?;
        Ok(taken)
    }

    /// Moves as many octets of the output to the buffer as fit. Returns how many.
    ///
    /// # Errors
    ///
    /// `Memory`.
    pub fn put_out(&mut self, buffer: &mut [u8]) -> Result<usize, Error> {
        let mut count = 0;
        // SAFETY: the pointers point to the place, that many octets and a number.
        check(unsafe {
            let (at, room) = (buffer.as_mut_ptr(), buffer.len());
            ffi::bj_put_out(self.place(), at, room, &mut count)
        })?;
        Ok(count)
    }

    /// Pumps and writes until nothing more can be sent.
    ///
    /// # Errors
    ///
    /// Those of the writer: what it did not accept is still waiting, so this can be called again.
    /// `Memory`, as an [`io::Error`].
    pub fn write_out(&mut self, writer: &mut impl Write) -> io::Result<()> {
        loop {
            match self.pump() {
                Ok(_) | Err(Error::Closed) => {}
                Err(error) => return Err(error.into()),
            }
            let (first, second) = self.waiting()?;
            if first.is_empty() && second.is_empty() {
                return writer.flush();
            }
            match writer.write_vectored(&[IoSlice::new(first), IoSlice::new(second)]) {
                Ok(0) => return Err(io::ErrorKind::WriteZero.into()),
                Ok(count) => self.consume(count)?,
                Err(error) if error.kind() == io::ErrorKind::Interrupted => continue,
                Err(error) => return Err(error),
            };
        }
    }

    /// Whether 65,536 octets of output or more are waiting, so that calls that send are refused.
    pub fn is_full(&self) -> bool {
        self.is(ffi::bj_is_full)
    }

    /// Whether no output is waiting, and no stream is active or the connection has failed.
    pub fn is_drained(&self) -> bool {
        self.is(ffi::bj_is_drained)
    }

    /// Whether the connection has not failed, no output is waiting, no credit is owed, and nothing
    /// kept can be sent.
    pub fn is_quiet(&self) -> bool {
        self.is(ffi::bj_is_quiet)
    }

    /// Whether a stream is active: open or half-closed. A failed connection does not change that.
    pub fn is_active(&self, stream: u32) -> bool {
        // SAFETY: the place is as the library has left it.
        unsafe { ffi::bj_is_active(self.place(), stream) == 1 }
    }

    /// The error code with which the connection has failed, if it has.
    pub fn failed(&self) -> Option<Code> {
        let mut code = 0;
        // SAFETY: the pointers point to the place and a number.
        let answer = unsafe { ffi::bj_failed(self.place(), &mut code) };
        (answer == ffi::OK).then_some(Code(code))
    }

    /// Why the connection has failed, if it has.
    pub fn why(&self) -> Option<Why> {
        let mut why = 0;
        // SAFETY: the pointers point to the place and a number.
        let answer = unsafe { ffi::bj_why(self.place(), &mut why) };
        (answer == ffi::OK).then(|| Why::from_number(why))
    }

    /// The stream of the last malformed message that was received, and the rule that it breaks.
    pub fn last_malformed(&self) -> Option<(u32, Rule)> {
        let (mut stream, mut error) = (0, ffi::OK);
        // SAFETY: the pointers point to the place and two numbers.
        let answer = unsafe { ffi::bj_last_malformed(self.place(), &mut stream, &mut error) };
        match Error::from_number(error) {
            Error::BadMessage(rule) if answer == ffi::OK => Some((stream, rule)),
            _ => None,
        }
    }

    /// The payload length of the last DATA frame, padding included; 0 before the first. After
    /// [`Event::Body`], [release](End::release) it once the octets are used, if it is not 0 and the
    /// stream is still active.
    pub fn last_flow(&self) -> u32 {
        let mut flow = 0;
        // SAFETY: the pointers point to the place and a number.
        unsafe { ffi::bj_last_flow(self.place(), &mut flow) };
        flow
    }

    /// The number of valid RST_STREAM frames received from the peer, at most [`u32::MAX`]. There is
    /// no limit on them: [fail](End::fail) the connection if the peer opens streams only to reset
    /// them at once.
    pub fn resets_received(&self) -> u32 {
        let mut count = 0;
        // SAFETY: the pointers point to the place and a number.
        unsafe { ffi::bj_resets_received(self.place(), &mut count) };
        count
    }

    /// The number of empty frames received from the peer, at most [`u32::MAX`]: DATA without
    /// END_STREAM, and HEADERS and CONTINUATION without END_HEADERS, that carry no octets besides
    /// padding.
    pub fn empty_frames_received(&self) -> u32 {
        let mut count = 0;
        // SAFETY: the pointers point to the place and a number.
        unsafe { ffi::bj_empty_frames_received(self.place(), &mut count) };
        count
    }

    /// The number of PING frames without ACK received from the peer, at most [`u32::MAX`].
    pub fn pings_received(&self) -> u32 {
        let mut count = 0;
        // SAFETY: the pointers point to the place and a number.
        unsafe { ffi::bj_pings_received(self.place(), &mut count) };
        count
    }

    /// The number of SETTINGS frames without ACK received from the peer, at most [`u32::MAX`].
    pub fn settings_received(&self) -> u32 {
        let mut count = 0;
        // SAFETY: the pointers point to the place and a number.
        unsafe { ffi::bj_settings_received(self.place(), &mut count) };
        count
    }

    /// The stream of an incomplete field block. `None` if there is none, or the connection has
    /// failed.
    pub fn block_stream(&self) -> Option<u32> {
        let mut stream = 0;
        // SAFETY: the pointers point to the place and a number.
        let answer = unsafe { ffi::bj_block_stream(self.place(), &mut stream) };
        (answer == ffi::OK).then_some(stream)
    }

    /// The current settings of the peer: those received last, and the initial values before any.
    /// They are meaningless once the connection has failed.
    pub fn peer_settings(&self) -> PeerSettings {
        let mut settings = ffi::Settings { initial_window: 0, max_frame: 0 };
        // SAFETY: the pointers point to the place and a `bj_settings`.
        unsafe { ffi::bj_peer_settings(self.place(), &mut settings) };
        let ffi::Settings { initial_window, max_frame } = settings;
        PeerSettings { initial_window, max_frame }
    }

    /// The send window of a stream, or of the connection (stream 0), in octets; negative if
    /// SETTINGS have reduced it so. `None` if the stream is not active, or the connection has
    /// failed.
    pub fn room(&self, stream: u32) -> Option<i64> {
        let mut room = 0;
        // SAFETY: the pointers point to the place and a number.
        let answer = unsafe { ffi::bj_room(self.place(), stream, &mut room) };
        (answer == ffi::OK).then_some(room)
    }

    /// How many octets of a stream were handed out and are not released yet; 0 once the connection
    /// has failed.
    pub fn owed(&self, stream: u32) -> u32 {
        let mut owed = 0;
        // SAFETY: the pointers point to the place and a number.
        unsafe { ffi::bj_owed(self.place(), stream, &mut owed) };
        owed
    }

    /// How many octets the peer may send on the connection before any of them is returned: 65,535,
    /// and what [`widen`](End::widen) has added; 0 once the connection has failed.
    pub fn granted(&self) -> u32 {
        let mut granted = 0;
        // SAFETY: the pointers point to the place and a number.
        unsafe { ffi::bj_granted(self.place(), &mut granted) };
        granted
    }

    /// How many octets of the body given for a stream are kept for [`pump`](End::pump).
    pub fn unsent(&self, stream: u32) -> usize {
        let mut unsent = 0;
        // SAFETY: the pointers point to the place and a number.
        unsafe { ffi::bj_unsent(self.place(), stream, &mut unsent) };
        unsent
    }

    /// The active streams, lowest first; none once the connection has failed.
    pub fn live(&self) -> impl Iterator<Item = u32> + '_ {
        let mut above = 0;
        std::iter::from_fn(move || {
            let mut stream = 0;
            // SAFETY: the pointers point to the place and a number.
            let answer = unsafe { ffi::bj_next_live(self.place(), above, &mut stream) };
            (answer == ffi::OK).then(|| {
                above = stream;
                stream
            })
        })
    }

    /// Attaches a value to a stream, which [`Taken::user`] returns with each event of the stream; 0
    /// removes it. It stays until then, even after the stream is closed.
    ///
    /// # Errors
    ///
    /// `Memory`.
    pub fn set_user(&mut self, stream: u32, user: usize) -> Result<(), Error> {
        // SAFETY: the place is as the library has left it.
        check(unsafe { ffi::bj_set_user(self.place(), stream, user) })
    }

    /// The value attached to a stream, or 0.
    pub fn user(&self, stream: u32) -> usize {
        let mut user = 0;
        // SAFETY: the pointers point to the place and a number.
        unsafe { ffi::bj_user(self.place(), stream, &mut user) };
        user
    }
}

const _: () = assert!(mem::size_of::<ffi::End>() == 16);
