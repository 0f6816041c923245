//! Settings of an endpoint.

use crate::ffi;

/// Settings of an endpoint (RFC 9113, section 6.5.2). [`Default`] has the initial values.
///
/// The values are checked when an endpoint is created or its settings are changed: see
/// [`Error::BadConfig`](crate::Error::BadConfig).
///
/// ```
/// use belkjoef::{Config, Server};
///
/// let config = Config { max_streams: 1_000, ..Config::default() };
/// let server = Server::new(&config)?;
/// # drop(server);
/// # Ok::<(), belkjoef::Error>(())
/// ```
#[derive(Clone, Copy, Debug, PartialEq, Eq, Hash)]
pub struct Config {
    /// HEADER_TABLE_SIZE: 0 to 65,536.
    pub table_limit: u32,
    /// INITIAL_WINDOW_SIZE: 1 to 2^31 - 1.
    pub initial_window: u32,
    /// MAX_CONCURRENT_STREAMS, of a server: 100 to 1,000.
    pub max_streams: u32,
    /// MAX_FRAME_SIZE: 16,384 to 1,048,576.
    pub max_frame: u32,
}

/// Current settings of the peer (RFC 9113, section 6.5.2):
/// [`End::peer_settings`](crate::End::peer_settings).
#[derive(Clone, Copy, Debug, PartialEq, Eq, Hash)]
pub struct PeerSettings {
    /// INITIAL_WINDOW_SIZE.
    pub initial_window: u32,
    /// MAX_FRAME_SIZE.
    pub max_frame: u32,
}

impl Config {
    pub(crate) fn raw(&self) -> ffi::Config {
        ffi::Config {
            table_limit: self.table_limit,
            initial_window: self.initial_window,
            max_streams: self.max_streams,
            max_frame: self.max_frame,
        }
    }
}

impl Default for Config {
    fn default() -> Self {
        let mut raw =
            ffi::Config { table_limit: 0, initial_window: 0, max_streams: 0, max_frame: 0 };
        // SAFETY: the pointer points to a `bj_config`.
        unsafe { ffi::bj_config_default(&mut raw) };
        Config {
            table_limit: raw.table_limit,
            initial_window: raw.initial_window,
            max_streams: raw.max_streams,
            max_frame: raw.max_frame,
        }
    }
}
