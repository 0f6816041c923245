//! The functions of `belkjoef.h`, as declared there.

use crate::Field;
use std::ffi::c_char;
use std::os::raw::c_int;
use std::slice;

/// `bj_config`.
#[repr(C)]
#[derive(Clone, Copy)]
pub(crate) struct Config {
    pub(crate) table_limit: u32,
    pub(crate) initial_window: u32,
    pub(crate) max_streams: u32,
    pub(crate) max_frame: u32,
}

/// `bj_settings`.
#[repr(C)]
pub(crate) struct Settings {
    pub(crate) initial_window: u32,
    pub(crate) max_frame: u32,
}

/// `bj_end`; `bj_encoder` and `bj_decoder` have the same layout.
#[repr(C)]
pub(crate) struct End {
    pub(crate) at: *mut u8,
    pub(crate) state: u64,
}

/// `bj_span`.
#[repr(C)]
pub(crate) struct Span {
    pub(crate) octets: *const u8,
    pub(crate) length: usize,
}

/// `bj_event`.
#[repr(C)]
pub(crate) struct Event {
    pub(crate) used: usize,
    pub(crate) kind: u32,
    pub(crate) stream: u32,
    pub(crate) code: u32,
    pub(crate) end: u32,
    pub(crate) ours: u32,
    pub(crate) ping: [u8; 8],
    pub(crate) fields: usize,
    pub(crate) octets: *const u8,
    pub(crate) length: usize,
    pub(crate) user: usize,
}

pub(crate) const OK: c_int = 0;
pub(crate) const FAILED: c_int = -4;
pub(crate) const NONE: c_int = -6;

pub(crate) const INTERIM: u32 = 1;
pub(crate) const HEAD: u32 = 2;
pub(crate) const BODY: u32 = 3;
pub(crate) const TRAILERS: u32 = 4;
pub(crate) const RESET: u32 = 5;
pub(crate) const UNPROCESSED: u32 = 6;
pub(crate) const GOAWAY: u32 = 7;
pub(crate) const ACKED: u32 = 8;
pub(crate) const PONG: u32 = 9;

/// Octets that the library lends. If there are none, their address is not used.
///
/// # Safety
///
/// `length` octets lie at the address, and nothing writes them while they are lent.
pub(crate) unsafe fn lent<'a>(octets: *const u8, length: usize) -> &'a [u8] {
    if length == 0 {
        return &[];
    }
    // SAFETY: the caller guarantees it.
    unsafe { slice::from_raw_parts(octets, length) }
}

// The obligations of the caller are in belkjoef.h: pointers are not null, lengths are those of what
// they point to, and one thread at a time uses a place.
extern "C" {
    pub(crate) fn bj_version() -> u32;
    pub(crate) fn bj_error_text(error: c_int, text: *mut *const c_char);
    pub(crate) fn bj_config_default(config: *mut Config);
    pub(crate) fn bj_server_new(config: *const Config, end: *mut End) -> c_int;
    pub(crate) fn bj_client_new(config: *const Config, end: *mut End) -> c_int;
    pub(crate) fn bj_free(end: *mut End) -> c_int;
    pub(crate) fn bj_take(
        end: *mut End,
        octets: *const u8,
        length: usize,
        event: *mut Event,
    ) -> c_int;
    pub(crate) fn bj_fields(
        end: *mut End,
        from: usize,
        fields: *mut Field<'_>,
        room: usize,
        count: *mut usize,
    ) -> c_int;
    pub(crate) fn bj_respond(
        end: *mut End,
        stream: u32,
        head: *const Field<'_>,
        head_count: usize,
        body: *const u8,
        length: usize,
    ) -> c_int;
    pub(crate) fn bj_request(
        end: *mut End,
        head: *const Field<'_>,
        head_count: usize,
        body: *const u8,
        length: usize,
        stream: *mut u32,
    ) -> c_int;
    pub(crate) fn bj_pump(end: *mut End, sent: *mut usize) -> c_int;
    pub(crate) fn bj_pump_some(end: *mut End, most: usize, sent: *mut usize) -> c_int;
    pub(crate) fn bj_begin_response(
        end: *mut End,
        stream: u32,
        head: *const Field<'_>,
        head_count: usize,
    ) -> c_int;
    pub(crate) fn bj_begin_request(
        end: *mut End,
        head: *const Field<'_>,
        head_count: usize,
        stream: *mut u32,
    ) -> c_int;
    pub(crate) fn bj_send_body(
        end: *mut End,
        stream: u32,
        octets: *const u8,
        length: usize,
        ends: bool,
        sent: *mut usize,
    ) -> c_int;
    pub(crate) fn bj_send_trailers(
        end: *mut End,
        stream: u32,
        trailers: *const Field<'_>,
        count: usize,
    ) -> c_int;
    pub(crate) fn bj_release(end: *mut End, stream: u32, count: u32) -> c_int;
    pub(crate) fn bj_release_all(end: *mut End) -> c_int;
    pub(crate) fn bj_widen(end: *mut End, count: u32) -> c_int;
    pub(crate) fn bj_reset(end: *mut End, stream: u32, code: u32) -> c_int;
    pub(crate) fn bj_ping(end: *mut End, octets: *const u8) -> c_int;
    pub(crate) fn bj_go_away(end: *mut End) -> c_int;
    pub(crate) fn bj_fail(end: *mut End, code: u32) -> c_int;
    pub(crate) fn bj_change_settings(end: *mut End, config: *const Config) -> c_int;
    pub(crate) fn bj_ready(end: *mut End) -> c_int;
    pub(crate) fn bj_waiting(end: *mut End, first: *mut Span, second: *mut Span) -> c_int;
    pub(crate) fn bj_consume(end: *mut End, count: usize, taken: *mut usize) -> c_int;
    pub(crate) fn bj_put_out(
        end: *mut End,
        buffer: *mut u8,
        room: usize,
        count: *mut usize,
    ) -> c_int;
    pub(crate) fn bj_is_full(end: *mut End) -> c_int;
    pub(crate) fn bj_is_drained(end: *mut End) -> c_int;
    pub(crate) fn bj_is_quiet(end: *mut End) -> c_int;
    pub(crate) fn bj_is_active(end: *mut End, stream: u32) -> c_int;
    pub(crate) fn bj_failed(end: *mut End, code: *mut u32) -> c_int;
    pub(crate) fn bj_why(end: *mut End, why: *mut u32) -> c_int;
    pub(crate) fn bj_why_text(why: u32, text: *mut *const c_char);
    pub(crate) fn bj_last_malformed(end: *mut End, stream: *mut u32, error: *mut c_int) -> c_int;
    pub(crate) fn bj_last_flow(end: *mut End, flow: *mut u32) -> c_int;
    pub(crate) fn bj_resets_received(end: *mut End, count: *mut u32) -> c_int;
    pub(crate) fn bj_empty_frames_received(end: *mut End, count: *mut u32) -> c_int;
    pub(crate) fn bj_pings_received(end: *mut End, count: *mut u32) -> c_int;
    pub(crate) fn bj_settings_received(end: *mut End, count: *mut u32) -> c_int;
    pub(crate) fn bj_block_stream(end: *mut End, stream: *mut u32) -> c_int;
    pub(crate) fn bj_peer_settings(end: *mut End, settings: *mut Settings) -> c_int;
    pub(crate) fn bj_room(end: *mut End, stream: u32, room: *mut i64) -> c_int;
    pub(crate) fn bj_owed(end: *mut End, stream: u32, owed: *mut u32) -> c_int;
    pub(crate) fn bj_granted(end: *mut End, granted: *mut u32) -> c_int;
    pub(crate) fn bj_unsent(end: *mut End, stream: u32, unsent: *mut usize) -> c_int;
    pub(crate) fn bj_next_live(end: *mut End, above: u32, stream: *mut u32) -> c_int;
    pub(crate) fn bj_set_user(end: *mut End, stream: u32, user: usize) -> c_int;
    pub(crate) fn bj_user(end: *mut End, stream: u32, user: *mut usize) -> c_int;
    pub(crate) fn bj_encoder_new(maximum: u32, encoder: *mut End) -> c_int;
    pub(crate) fn bj_encoder_free(encoder: *mut End) -> c_int;
    pub(crate) fn bj_encoder_set_limit(encoder: *mut End, limit: u32) -> c_int;
    pub(crate) fn bj_encode(
        encoder: *mut End,
        fields: *const Field<'_>,
        field_count: usize,
        block: *mut Span,
    ) -> c_int;
    pub(crate) fn bj_decoder_new(maximum: u32, decoder: *mut End) -> c_int;
    pub(crate) fn bj_decoder_free(decoder: *mut End) -> c_int;
    pub(crate) fn bj_decoder_set_limit(decoder: *mut End, limit: u32) -> c_int;
    pub(crate) fn bj_decode(
        decoder: *mut End,
        block: *const u8,
        length: usize,
        list_limit: u32,
        count: *mut usize,
    ) -> c_int;
    pub(crate) fn bj_decoded(
        decoder: *mut End,
        from: usize,
        fields: *mut Field<'_>,
        room: usize,
        count: *mut usize,
    ) -> c_int;
}
