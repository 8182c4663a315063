//! The settings of a configuration while they are chosen.

use super::{Config, HEADERS, LONGEST_FRAGMENT};
use crate::error::ConfigError;
use crate::sctp_terms;
use crate::time::length;
use core::time::Duration;

/// The settings of an endpoint while they are chosen: [`build`](ConfigBuilder::build) checks them.
///
/// | setting | range | at first |
/// |---|---|---|
/// | [`packet_limit`](Self::packet_limit) | 576 to 1,500 bytes | 1,232, which with UDP and IPv6 fits 1,280 |
/// | [`fragment`](Self::fragment) | 4 to 1,400 bytes, and 32 more fit a packet | as long as a packet allows |
/// | [`receive_buffer`](Self::receive_buffer) | 65,536 to 16,777,216 bytes | 4 MiB |
/// | [`streams`](Self::streams) | 1 to 1,024 each way | 64 each way |
/// | [`interleaving`](Self::interleaving), [`partial_reliability`](Self::partial_reliability), [`stream_reset`](Self::stream_reset) | | asked for |
/// | [`delayed_sacks`](Self::delayed_sacks) | | no |
/// | [`standard_closing`](Self::standard_closing) | | yes |
/// | [`congestion_control`](Self::congestion_control), [`fast_retransmit`](Self::fast_retransmit) | | yes |
/// | [`rto_min`](Self::rto_min) | 0 to 2^32 - 1 ms | 1 s |
///
/// ```
/// use sidorghu::{Config, ConfigError};
///
/// let config = Config::builder(5_000, 5_001).streams(1, 1).receive_buffer(65_536).build()?;
/// assert_eq!(config.fragment(), 1_200);
/// assert_eq!(Config::builder(5_000, 0).build(), Err(ConfigError::Port));
/// # Ok::<(), ConfigError>(())
/// ```
#[derive(Clone, Copy, Debug, PartialEq, Eq)]
#[must_use = "settings do nothing until they are built"]
pub struct ConfigBuilder {
    pub(super) own_port: u16,
    pub(super) peer_port: u16,
    pub(super) packet_limit: u16,
    pub(super) fragment: Option<u16>,
    pub(super) receive_buffer: u32,
    pub(super) outbound: u16,
    pub(super) inbound: u16,
    pub(super) interleaving: bool,
    pub(super) partial_reliability: bool,
    pub(super) stream_reset: bool,
    pub(super) delayed_sacks: bool,
    pub(super) standard_closing: bool,
    pub(super) fast_retransmit: bool,
    pub(super) congestion_control: bool,
    pub(super) rto_min: Duration,
}

impl ConfigBuilder {
    /// The bytes of the longest packet that is sent, from the common header on.
    pub const fn packet_limit(self, bytes: u16) -> ConfigBuilder {
        ConfigBuilder { packet_limit: bytes, ..self }
    }

    /// The data bytes of every fragment but a message's last.
    pub const fn fragment(self, bytes: u16) -> ConfigBuilder {
        ConfigBuilder { fragment: Some(bytes), ..self }
    }

    /// The bytes of the receive buffer. It is a limit, for which nothing is allocated in advance. It has at least the number of streams that the peer
    /// sends on times its longest message, or without interleaving its longest message; four times that with browsers. With less, parts of messages
    /// can fill it, and nothing more is received: [`reassembly_bytes`](crate::Endpoint::reassembly_bytes) is near it then.
    pub const fn receive_buffer(self, bytes: u32) -> ConfigBuilder {
        ConfigBuilder { receive_buffer: bytes, ..self }
    }

    /// The number of streams to ask for to the peer, and to accept from it.
    pub const fn streams(self, outbound: u16, inbound: u16) -> ConfigBuilder {
        ConfigBuilder { outbound, inbound, ..self }
    }

    /// Whether to ask for I-DATA: messages of several streams are interleaved (RFC 8260).
    pub const fn interleaving(self, asked: bool) -> ConfigBuilder {
        ConfigBuilder { interleaving: asked, ..self }
    }

    /// Whether to ask for partial reliability: messages that were sent may be abandoned (RFC 3758, RFC 7496).
    pub const fn partial_reliability(self, asked: bool) -> ConfigBuilder {
        ConfigBuilder { partial_reliability: asked, ..self }
    }

    /// Whether to ask for the reset of streams (RFC 6525).
    pub const fn stream_reset(self, asked: bool) -> ConfigBuilder {
        ConfigBuilder { stream_reset: asked, ..self }
    }

    /// Whether a SACK waits for a second packet, 200 ms at most (RFC 9260, 6.2).
    pub const fn delayed_sacks(self, delayed: bool) -> ConfigBuilder {
        ConfigBuilder { delayed_sacks: delayed, ..self }
    }

    /// Whether to close by the RFC's timers: then a peer that keeps sending can delay closing without limit (RFC 9260, 6.3.2, 8.1 and 9.2).
    pub const fn standard_closing(self, standard: bool) -> ConfigBuilder {
        ConfigBuilder { standard_closing: standard, ..self }
    }

    /// Whether to retransmit what three SACKs reported missing without waiting for the data timer, and to compute the RTO from measured round trips
    /// (RFC 9260, 7.2.4 and 6.3.1). Alone it limits nothing that is sent, and isn't for the Internet. Congestion control brings it.
    pub const fn fast_retransmit(self, fast: bool) -> ConfigBuilder {
        ConfigBuilder { fast_retransmit: fast, ..self }
    }

    /// Whether a congestion window limits the bytes in flight, by slow start, congestion avoidance and Fast Recovery (RFC 9260, 7.2).
    pub const fn congestion_control(self, controlled: bool) -> ConfigBuilder {
        ConfigBuilder { congestion_control: controlled, ..self }
    }

    /// The least RTO that is computed from round trips (RFC 9260, 6.3.1), rounded up to milliseconds; 2^32 - 1 ms if it is longer. Below the round
    /// trip and 200 ms, a peer that delays its SACKs causes retransmissions of what arrived.
    pub const fn rto_min(self, least: Duration) -> ConfigBuilder {
        ConfigBuilder { rto_min: least, ..self }
    }

    /// The configuration with these settings.
    ///
    /// # Errors
    /// The first [`ConfigError`] that applies.
    pub fn build(self) -> Result<Config, ConfigError> {
        let config = sctp_terms::Config::new(
            self.own_port,
            self.peer_port,
            self.packet_limit,
            self.fragment.unwrap_or(longest_fragment(self.packet_limit)),
            self.receive_buffer,
            self.outbound,
            self.inbound,
        )
        .map_err(ConfigError::of)?;
        Ok(Config(self.extended(config)))
    }

    /// The extensions and the options.
    fn extended(self, config: sctp_terms::Config) -> sctp_terms::Config {
        type With = fn(sctp_terms::Config) -> sctp_terms::Config;
        let options: [(bool, With); 7] = [
            (self.interleaving, sctp_terms::Config::with_interleave),
            (self.partial_reliability, sctp_terms::Config::with_partial),
            (self.stream_reset, sctp_terms::Config::with_reset),
            (self.delayed_sacks, sctp_terms::Config::with_delay),
            (self.standard_closing, sctp_terms::Config::with_standard_closing),
            (self.fast_retransmit, sctp_terms::Config::with_fast_retransmit),
            (self.congestion_control, sctp_terms::Config::with_congestion_control),
        ];
        let config = config.with_rto_min(length(self.rto_min));
        options.into_iter().filter(|(asked, _)| *asked).fold(config, |config, (_, with)| with(config))
    }
}

/// The longest fragment that fits packets of this limit, a multiple of 4.
fn longest_fragment(packet_limit: u16) -> u16 {
    (packet_limit.saturating_sub(HEADERS) / 4 * 4).min(LONGEST_FRAGMENT)
}
