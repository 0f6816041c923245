//! An encoder and a decoder of field blocks (HPACK, RFC 7541).

use crate::error::check;
use crate::{ffi, Error, Field, Fields};
use std::fmt;
use std::ptr;

/// Encodes the field blocks of one direction of a connection, in order. An endpoint has its own;
/// this is for callers with a framing layer of their own.
///
/// ```
/// use belkjoef::{Decoder, Encoder, Field};
///
/// let mut encoder = Encoder::new(4096)?;
/// let mut decoder = Decoder::new(4096)?;
/// let list = [Field::new(":status", "200"), Field::new("server", "here")];
/// let block = encoder.encode(&list)?;
/// assert!(decoder.decode(block, 65_536)?.iter().eq(list));
/// # Ok::<(), belkjoef::Error>(())
/// ```
pub struct Encoder {
    place: ffi::End,
}

// SAFETY: the encoder owns what the place holds, and uses it only through `&mut`.
unsafe impl Send for Encoder {}

impl Drop for Encoder {
    fn drop(&mut self) {
        // SAFETY: the place is as the library has left it.
        unsafe { ffi::bj_encoder_free(&mut self.place) };
    }
}

impl fmt::Debug for Encoder {
    fn fmt(&self, f: &mut fmt::Formatter<'_>) -> fmt::Result {
        f.debug_struct("Encoder").finish_non_exhaustive()
    }
}

impl Encoder {
    /// Creates an encoder with an empty dynamic table whose maximum size and limit are `maximum`
    /// octets: 4,096 for a new connection.
    ///
    /// # Errors
    ///
    /// `Memory`.
    pub fn new(maximum: u32) -> Result<Encoder, Error> {
        let mut place = ffi::End { at: ptr::null_mut(), state: 0 };
        // SAFETY: the place is all zero.
        check(unsafe { ffi::bj_encoder_new(maximum, &mut place) })?;
        Ok(Encoder { place })
    }

    /// Applies the peer's SETTINGS_HEADER_TABLE_SIZE; the next block signals the change. That block
    /// allocates `limit / 32` entries, so cap what a peer asks for.
    pub fn set_limit(&mut self, limit: u32) {
        // SAFETY: the place is as the library has left it.
        unsafe { ffi::bj_encoder_set_limit(&mut self.place, limit) };
    }

    /// Encodes fields, and lends the block. The decoder must be given each block, in order, since
    /// the next one builds on it.
    ///
    /// ```compile_fail,E0499
    /// # use belkjoef::{Encoder, Field};
    /// # let mut encoder = Encoder::new(4096).unwrap();
    /// let first = encoder.encode(&[Field::new("a", "1")]).unwrap();
    /// let second = encoder.encode(&[Field::new("a", "2")]).unwrap();
    /// println!("{first:?} {second:?}");
    /// ```
    ///
    /// # Errors
    ///
    /// `ListTooLarge`: the fields have 2^35 octets or more. `Memory`. The encoder is unchanged.
    pub fn encode(&mut self, fields: &[Field<'_>]) -> Result<&[u8], Error> {
        let mut block = ffi::Span { octets: ptr::null(), length: 0 };
        // SAFETY: the pointers point to the place, that many fields and a span. What it lends is
        // valid until the next call of the encoder, which is borrowed until then.
        unsafe {
            let (at, count) = (fields.as_ptr(), fields.len());
            check(ffi::bj_encode(&mut self.place, at, count, &mut block))?;
            Ok(ffi::lent(block.octets, block.length))
        }
    }
}

/// Decodes the field blocks of one direction of a connection, in order: see [`Encoder`].
pub struct Decoder {
    place: ffi::End,
    /// Memory for the fields that are lent; used only while they are lent.
    fields: Vec<Field<'static>>,
}

// SAFETY: as for an encoder; only a borrower of the decoder uses the fields.
unsafe impl Send for Decoder {}

impl Drop for Decoder {
    fn drop(&mut self) {
        // SAFETY: the place is as the library has left it.
        unsafe { ffi::bj_decoder_free(&mut self.place) };
    }
}

impl fmt::Debug for Decoder {
    fn fmt(&self, f: &mut fmt::Formatter<'_>) -> fmt::Result {
        f.debug_struct("Decoder").finish_non_exhaustive()
    }
}

impl Decoder {
    /// Creates a decoder with an empty dynamic table whose maximum size and limit are `maximum`
    /// octets: 4,096 for a new connection.
    ///
    /// # Errors
    ///
    /// `Memory`.
    pub fn new(maximum: u32) -> Result<Decoder, Error> {
        let mut place = ffi::End { at: ptr::null_mut(), state: 0 };
        // SAFETY: the place is all zero.
        check(unsafe { ffi::bj_decoder_new(maximum, &mut place) })?;
        Ok(Decoder { place, fields: Vec::new() })
    }

    /// Sets the limit of the table, which applies to size updates in later blocks: call it once the
    /// peer has acknowledged the SETTINGS with this value.
    pub fn set_limit(&mut self, limit: u32) {
        // SAFETY: the place is as the library has left it.
        unsafe { ffi::bj_decoder_set_limit(&mut self.place, limit) };
    }

    /// Decodes a complete block, and lends its fields.
    ///
    /// # Errors
    ///
    /// `DecoderFailed`: an earlier block failed. `Compression`: the block cannot be decoded.
    /// `Memory`. After the last two the decoder has failed. `ListTooLarge`: the fields have more
    /// than `list_limit` octets, counting 32 extra for each; the next block can be decoded.
    pub fn decode(&mut self, block: &[u8], list_limit: u32) -> Result<Fields<'_>, Error> {
        let (mut count, mut said) = (0, 0);
        // SAFETY: the pointers point to the place, that many octets and a number.
        check(unsafe {
            let (at, length) = (block.as_ptr(), block.len());
            ffi::bj_decode(&mut self.place, at, length, list_limit, &mut count)
        })?;
        self.fields.resize(count, Field::new("", ""));
        let at = self.fields.as_mut_ptr();
        // SAFETY: the pointers point to the place, that many fields and a number. What they lend
        // is valid until the next call of the decoder, which is borrowed until then.
        unsafe { ffi::bj_decoded(&mut self.place, 0, at, count, &mut said) };
        self.fields.truncate(said);
        Ok(Fields::new(&self.fields))
    }
}
