//! What an endpoint is made with.

mod builder;

pub use builder::ConfigBuilder;

use crate::error::ConfigError;
use crate::sctp_terms;
use crate::time::millis;
use core::fmt;
use core::time::Duration;

/// The bytes of a packet beside a fragment: the common header and the header of an I-DATA chunk.
const HEADERS: u16 = 32;
/// The longest fragment in bytes.
const LONGEST_FRAGMENT: u16 = 1_400;

/// The configuration of an endpoint: it has no fault. [`Config::builder`] makes one, and [`Config::for_data_channels`] one for WebRTC.
#[derive(Clone, Copy, PartialEq, Eq)]
pub struct Config(pub(crate) sctp_terms::Config);

impl Config {
    /// The settings to begin with, for an endpoint at `own_port` whose peer is at `peer_port` (ports of SCTP, not of UDP): those of a network that
    /// others use, too. [`ConfigBuilder`] has a table of them.
    pub const fn builder(own_port: u16, peer_port: u16) -> ConfigBuilder {
        ConfigBuilder {
            own_port,
            peer_port,
            packet_limit: 1_232,
            fragment: None,
            receive_buffer: 4 << 20,
            outbound: 64,
            inbound: 64,
            interleaving: true,
            partial_reliability: true,
            stream_reset: true,
            delayed_sacks: false,
            standard_closing: true,
            fast_retransmit: true,
            congestion_control: true,
            rto_min: Duration::from_secs(1),
        }
    }

    /// The configuration for data channels over DTLS (RFC 8831, 6): packets of at most 1,188 bytes, so that with DTLS, UDP and IPv6 they fit 1,280, a
    /// receive buffer of 1 MiB, 1,024 streams each way, partial reliability without interleaving, stream reset, congestion control. Port 5000 each
    /// way is usual in WebRTC. [`to_builder`](Config::to_builder) changes it.
    ///
    /// # Errors
    /// [`ConfigError::Port`] if a port is 0.
    pub fn for_data_channels(own_port: u16, peer_port: u16) -> Result<Config, ConfigError> {
        sctp_terms::Config::for_data_channels(own_port, peer_port).map(Config).map_err(ConfigError::of)
    }

    /// This configuration with a peer at `peer_port`. A server makes one for each peer, by the source port of its INIT; all else is as it was.
    ///
    /// # Errors
    /// [`ConfigError::Port`] if `peer_port` is 0.
    pub fn with_peer_port(self, peer_port: u16) -> Result<Config, ConfigError> {
        self.0.with_peer_port(peer_port).map(Config).map_err(ConfigError::of)
    }

    /// Settings that make this configuration, to be changed.
    pub fn to_builder(self) -> ConfigBuilder {
        ConfigBuilder {
            own_port: self.own_port(),
            peer_port: self.peer_port(),
            packet_limit: self.packet_limit(),
            fragment: Some(self.fragment()),
            receive_buffer: self.receive_buffer(),
            outbound: self.outbound(),
            inbound: self.inbound(),
            interleaving: self.interleaving(),
            partial_reliability: self.partial_reliability(),
            stream_reset: self.stream_reset(),
            delayed_sacks: self.delayed_sacks(),
            standard_closing: self.standard_closing(),
            fast_retransmit: self.fast_retransmit(),
            congestion_control: self.congestion_control(),
            rto_min: self.rto_min(),
        }
    }

    /// The endpoint's own port, which isn't 0.
    pub fn own_port(&self) -> u16 {
        self.0.own_port()
    }

    /// Its peer's port, which isn't 0.
    pub fn peer_port(&self) -> u16 {
        self.0.peer_port()
    }

    /// The bytes of the longest packet that it sends, 576 to 1,500.
    pub fn packet_limit(&self) -> u16 {
        self.0.limit()
    }

    /// The data bytes of every fragment but a message's last, 4 to 1,400.
    pub fn fragment(&self) -> u16 {
        self.0.fragment()
    }

    /// The bytes of its receive buffer, 65,536 to 16,777,216.
    pub fn receive_buffer(&self) -> u32 {
        self.0.buffer()
    }

    /// The number of streams that it asks for to its peer, 1 to 1,024.
    pub fn outbound(&self) -> u16 {
        self.0.outbound()
    }

    /// The number of streams that it accepts from its peer, 1 to 1,024.
    pub fn inbound(&self) -> u16 {
        self.0.inbound()
    }

    /// Whether it asks for I-DATA (RFC 8260).
    pub fn interleaving(&self) -> bool {
        self.0.interleave()
    }

    /// Whether it asks for partial reliability (RFC 3758).
    pub fn partial_reliability(&self) -> bool {
        self.0.partial()
    }

    /// Whether it asks for the reset of streams (RFC 6525).
    pub fn stream_reset(&self) -> bool {
        self.0.reset()
    }

    /// Whether it delays its SACKs: one may wait for a second packet, or 200 ms (RFC 9260, 6.2).
    pub fn delayed_sacks(&self) -> bool {
        self.0.delay()
    }

    /// Whether it closes by the RFC's timers.
    pub fn standard_closing(&self) -> bool {
        self.0.standard_closing()
    }

    /// Whether it retransmits what three SACKs reported missing, and computes the RTO from round trips (RFC 9260, 7.2.4 and 6.3.1).
    pub fn fast_retransmit(&self) -> bool {
        self.0.fast_retransmit()
    }

    /// Whether a congestion window limits the bytes in flight (RFC 9260, 7.2).
    pub fn congestion_control(&self) -> bool {
        self.0.congestion_control()
    }

    /// The least RTO that is computed from round trips (RFC 9260, 6.3.1), in whole milliseconds.
    pub fn rto_min(&self) -> Duration {
        millis(self.0.rto_min())
    }
}

impl fmt::Debug for Config {
    fn fmt(&self, f: &mut fmt::Formatter<'_>) -> fmt::Result {
        self.0.fmt(f)
    }
}
