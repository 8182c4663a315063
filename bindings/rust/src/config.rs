//! What an endpoint is made with.

use crate::raw;

/// What an endpoint is configured with; `sctp_endpoint.h` has the ranges.
///
/// The receive buffer has at least the number of streams the peer sends on times its longest message: else, with I-DATA, messages in part on
/// several streams can fill it, and nothing more is received.
#[derive(Clone, Copy, Debug)]
pub struct Config {
    pub own_port: u16,
    pub peer_port: u16,
    pub packet_limit: u16,
    pub fragment: u16,
    pub buffer: u32,
    pub outbound: u16,
    pub inbound: u16,
    /// Offer I-DATA (RFC 8260).
    pub interleave: bool,
    /// Offer partial reliability (RFC 3758).
    pub partial: bool,
    /// Delay SACKs for a second packet, 200 ms at most.
    pub delay: bool,
    /// Close by the timers of RFC 9260: a peer that never stops sending can delay closing without limit.
    pub standard_closing: bool,
    /// Fast retransmission, and an RTO that is computed from measured round trips (RFC 9260, 7.2.4 and 6.3.1). Alone it limits nothing that is
    /// sent, and isn't for the Internet.
    pub fast_retransmit: bool,
    /// Congestion control (RFC 9260, 7.2), which brings fast retransmission.
    pub congestion_control: bool,
    /// Offer the reset of streams (RFC 6525), either endpoint's: `Endpoint::reset`.
    pub stream_reset: bool,
    /// The least RTO that is computed from round trips, in milliseconds; 0 for 1,000.
    pub rto_min: u32,
}

impl Config {
    /// Packets of 1,232 bytes, 64 streams each way, a receive buffer of 4 MiB (64 messages of 65,536 bytes), both extensions.
    pub fn new(own_port: u16, peer_port: u16) -> Config {
        Config {
            own_port,
            peer_port,
            packet_limit: 1_232,
            fragment: 1_200,
            buffer: 4 << 20,
            outbound: 64,
            inbound: 64,
            interleave: true,
            partial: true,
            delay: false,
            standard_closing: true,
            fast_retransmit: false,
            congestion_control: false,
            stream_reset: false,
            rto_min: 1_000,
        }
    }

    /// What a browser's data channels need, as `SCTP_CHANNELS_CONFIG` of `sctp_channels.h`: packets of 1,188 bytes and less, 1,024 streams each way, a
    /// receive buffer of 1 MiB, partial reliability without I-DATA, congestion control and stream reset.
    pub fn for_data_channels(own_port: u16, peer_port: u16) -> Config {
        Config {
            packet_limit: 1_188,
            fragment: 1_156,
            buffer: 1 << 20,
            outbound: 1_024,
            inbound: 1_024,
            interleave: false,
            standard_closing: false,
            congestion_control: true,
            stream_reset: true,
            ..Config::new(own_port, peer_port)
        }
    }

    pub(crate) fn raw(&self) -> raw::Config {
        raw::Config {
            own_port: self.own_port,
            peer_port: self.peer_port,
            packet_limit: self.packet_limit,
            fragment: self.fragment,
            buffer: self.buffer,
            outbound: self.outbound,
            inbound: self.inbound,
            interleave: self.interleave,
            partial: self.partial,
            delay: self.delay,
            standard_closing: self.standard_closing,
            flags: u32::from(self.fast_retransmit)
                + 2 * u32::from(self.congestion_control)
                + 4 * u32::from(self.stream_reset),
            rto_min: self.rto_min,
            reserved: [0; 2],
        }
    }
}

/// Two random values from a secure source, new ones for each call (`Draw::random`): a verification tag, which isn't 0, and a first TSN.
#[derive(Clone, Copy, Debug)]
pub struct Draw {
    pub tag: std::num::NonZeroU32,
    pub tsn: u32,
}

impl Draw {
    pub(crate) fn raw(self) -> raw::Draw {
        raw::Draw { tag: self.tag.get(), tsn: self.tsn, reserved: 0 }
    }
}
