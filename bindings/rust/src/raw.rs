//! The headers `sctp_endpoint.h` and `sctp_channels.h`, as far as the calls of this crate go.

use core::ffi::c_void;

#[repr(C)]
pub struct Handle {
    pub full: usize,
    pub at: *mut c_void,
}

#[repr(C)]
pub struct Channels {
    pub full: usize,
    pub at: *mut c_void,
}

#[repr(C)]
#[derive(Clone, Copy)]
pub struct ChannelParameters {
    pub limit: u32,
    pub priority: u16,
    pub reliability: u8,
    pub ordered: bool,
    pub reserved: [u32; 2],
}

#[repr(C)]
#[derive(Clone, Copy, Default)]
pub struct ChannelEvent {
    pub length: usize,
    pub label_length: usize,
    pub reason: u32,
    pub limit: u32,
    pub priority: u16,
    pub reliability: u8,
    pub ordered: bool,
    pub stream: u16,
    pub kind: u8,
    pub text: bool,
    pub reserved: [u32; 2],
}

#[repr(C)]
#[derive(Clone, Copy)]
pub struct Config {
    pub own_port: u16,
    pub peer_port: u16,
    pub packet_limit: u16,
    pub fragment: u16,
    pub buffer: u32,
    pub outbound: u16,
    pub inbound: u16,
    pub interleave: bool,
    pub partial: bool,
    pub delay: bool,
    pub standard_closing: bool,
    pub flags: u32,
    pub rto_min: u32,
    pub reserved: [u32; 2],
}

#[repr(C)]
#[derive(Clone, Copy)]
pub struct Draw {
    pub tag: u32,
    pub tsn: u32,
    pub reserved: u64,
}

#[repr(C)]
pub struct Key {
    pub bytes: [u8; 32],
    pub reserved: [u32; 4],
}

#[repr(C)]
#[derive(Clone, Copy, Default)]
pub struct Verdict {
    pub length: usize,
    pub verdict: u32,
    pub reason: u32,
    pub reserved: u64,
}

#[repr(C)]
#[derive(Clone, Copy, Default)]
pub struct Sent {
    pub length: usize,
    pub tickets: u64,
    pub reserved: u64,
}

#[repr(C)]
#[derive(Clone, Copy, Default)]
pub struct Message {
    pub length: usize,
    pub number: u64,
    pub payload_id: u32,
    pub stream: u16,
    pub ordered: bool,
    pub numbered: bool,
    pub reserved: [u32; 4],
}

#[repr(C)]
#[derive(Clone, Copy, Default)]
pub struct Status {
    pub next_moment: u64,
    pub tickets: u64,
    pub outstanding: u64,
    pub queued: u64,
    pub queued_bytes: u64,
    pub held_bytes: u64,
    pub peer_window: u64,
    pub state: u32,
    pub ended: u32,
    pub outbound: u16,
    pub inbound: u16,
    pub interleaved: bool,
    pub partial: bool,
    pub reassembly_bytes: u32,
    pub resetting: u32,
    pub own_tag: u32,
    pub reserved: u32,
}

#[repr(C)]
#[derive(Clone, Copy, Default)]
pub struct Path {
    pub in_flight: u64,
    pub rto: u64,
    pub srtt: u32,
    pub rttvar: u32,
    pub cwnd: u32,
    pub ssthresh: u32,
    pub flags: u32,
    pub reserved: u32,
}

#[repr(C)]
#[derive(Clone, Copy, Default)]
pub struct Counts {
    pub packets_out: u64,
    pub bytes_out: u64,
    pub packets_in: u64,
    pub bytes_in: u64,
    pub first_sent: u64,
    pub timer_retransmitted: u64,
    pub fast_retransmitted: u64,
    pub sacks_out: u64,
    pub sacks_in: u64,
    pub abandoned: u64,
    pub dropped_fault: u64,
    pub dropped_ports: u64,
    pub dropped_tag: u64,
    pub dropped_state: u64,
    pub dropped_cookie: u64,
    pub reserved: u64,
}

extern "C" {
    pub fn sctp_endpoint_abi() -> u32;
    pub fn sctp_endpoint_version(text: *mut u8, text_length: usize) -> usize;
    pub fn sctp_endpoint_name(code: u32, text: *mut u8, text_length: usize) -> usize;
    pub fn sctp_endpoint_caller(handle: *mut Handle, config: *const Config) -> u32;
    pub fn sctp_endpoint_listener(handle: *mut Handle, config: *const Config, key: *const Key) -> u32;
    pub fn sctp_endpoint_opened(handle: *mut Handle, config: *const Config, own: *const Draw, peer: *const Draw) -> u32;
    pub fn sctp_endpoint_key_derived(master: *const Key, bytes: *const u8, length: usize, key: *mut Key) -> u32;
    pub fn sctp_endpoint_free(handle: *mut Handle);
    pub fn sctp_endpoint_connect(handle: *mut Handle, now: u64, draw: *const Draw) -> u32;
    pub fn sctp_endpoint_handle_packet(
        handle: *mut Handle,
        now: u64,
        packet: *const u8,
        packet_length: usize,
        draw: *const Draw,
        buffer: *mut u8,
        buffer_length: usize,
        verdict: *mut Verdict,
    ) -> u32;
    pub fn sctp_endpoint_poll_transmit(
        handle: *mut Handle,
        now: u64,
        buffer: *mut u8,
        buffer_length: usize,
        tickets: *mut u64,
        tickets_length: usize,
        sent: *mut Sent,
    ) -> u32;
    pub fn sctp_endpoint_on_moment(handle: *mut Handle, now: u64) -> u32;
    pub fn sctp_endpoint_send(
        handle: *mut Handle,
        stream: u16,
        ordered: bool,
        payload_id: u32,
        bytes: *const u8,
        length: usize,
        until: u64,
        ticket: *mut u64,
    ) -> u32;
    pub fn sctp_endpoint_send_with_max_retransmits(
        handle: *mut Handle,
        stream: u16,
        ordered: bool,
        payload_id: u32,
        bytes: *const u8,
        length: usize,
        until: u64,
        max_retransmits: u16,
        ticket: *mut u64,
    ) -> u32;
    pub fn sctp_endpoint_readable(handle: *mut Handle, from: u16, stream: *mut u16) -> u32;
    pub fn sctp_endpoint_peek(handle: *mut Handle, stream: u16, message: *mut Message) -> u32;
    pub fn sctp_endpoint_take(
        handle: *mut Handle,
        stream: u16,
        message: *mut Message,
        buffer: *mut u8,
        buffer_length: usize,
    ) -> u32;
    pub fn sctp_endpoint_abandon(handle: *mut Handle, ticket: u64, fate: *mut u32) -> u32;
    pub fn sctp_endpoint_acknowledged(handle: *mut Handle, ticket: u64, is: *mut bool) -> u32;
    pub fn sctp_endpoint_abandoned(handle: *mut Handle, ticket: u64, is: *mut bool) -> u32;
    pub fn sctp_endpoint_reset(handle: *mut Handle, stream: u16) -> u32;
    pub fn sctp_endpoint_resetting(handle: *mut Handle, stream: u16, is: *mut bool) -> u32;
    pub fn sctp_endpoint_take_reset(handle: *mut Handle, stream: *mut u16, earlier: *mut u64) -> u32;
    pub fn sctp_endpoint_trim(handle: *mut Handle) -> u32;
    pub fn sctp_endpoint_shutdown(handle: *mut Handle) -> u32;
    pub fn sctp_endpoint_abort(
        handle: *mut Handle,
        reason: *const u8,
        reason_length: usize,
        buffer: *mut u8,
        buffer_length: usize,
        length: *mut usize,
    ) -> u32;
    pub fn sctp_endpoint_status(handle: *mut Handle, status: *mut Status) -> u32;
    pub fn sctp_endpoint_own_tag(handle: *mut Handle, tag: *mut u32) -> u32;
    pub fn sctp_endpoint_path(handle: *mut Handle, path: *mut Path) -> u32;
    pub fn sctp_endpoint_counts(handle: *mut Handle, counts: *mut Counts) -> u32;
    pub fn sctp_endpoint_peek_packet(
        packet: *const u8,
        packet_length: usize,
        source: *mut u16,
        destination: *mut u16,
        tag: *mut u32,
    ) -> u32;
    pub fn sctp_endpoint_abort_cause(
        packet: *const u8,
        packet_length: usize,
        cause: *mut u16,
        buffer: *mut u8,
        buffer_length: usize,
        length: *mut usize,
    ) -> u32;
    pub fn sctp_channels_over(channels: *mut Channels, endpoint: *mut Handle, is_dtls_client: bool) -> u32;
    pub fn sctp_channels_free(channels: *mut Channels);
    pub fn sctp_channels_open(
        channels: *mut Channels,
        parameters: *const ChannelParameters,
        label: *const u8,
        label_length: usize,
        protocol: *const u8,
        protocol_length: usize,
        stream: u16,
        opened: *mut u16,
    ) -> u32;
    pub fn sctp_channels_open_negotiated(
        channels: *mut Channels,
        parameters: *const ChannelParameters,
        stream: u16,
    ) -> u32;
    pub fn sctp_channels_send(
        channels: *mut Channels,
        now: u64,
        stream: u16,
        text: bool,
        bytes: *const u8,
        length: usize,
        ticket: *mut u64,
    ) -> u32;
    pub fn sctp_channels_close(channels: *mut Channels, stream: u16) -> u32;
    pub fn sctp_channels_abandon(channels: *mut Channels, ticket: u64, fate: *mut u32) -> u32;
    pub fn sctp_channels_buffered_amount(channels: *mut Channels, stream: u16, bytes: *mut u64) -> u32;
    pub fn sctp_channels_set_buffered_amount_low_threshold(channels: *mut Channels, stream: u16, bytes: u32) -> u32;
    pub fn sctp_channels_max_message_size(channels: *mut Channels, bytes: *mut u32) -> u32;
    pub fn sctp_channels_next_event(
        channels: *mut Channels,
        event: *mut ChannelEvent,
        buffer: *mut u8,
        buffer_length: usize,
    ) -> u32;
    pub fn sctp_channels_connect(channels: *mut Channels, now: u64, draw: *const Draw) -> u32;
    pub fn sctp_channels_handle_packet(
        channels: *mut Channels,
        now: u64,
        packet: *const u8,
        packet_length: usize,
        draw: *const Draw,
        buffer: *mut u8,
        buffer_length: usize,
        verdict: *mut Verdict,
    ) -> u32;
    pub fn sctp_channels_poll_transmit(
        channels: *mut Channels,
        now: u64,
        buffer: *mut u8,
        buffer_length: usize,
        tickets: *mut u64,
        tickets_length: usize,
        sent: *mut Sent,
    ) -> u32;
    pub fn sctp_channels_on_moment(channels: *mut Channels, now: u64) -> u32;
    pub fn sctp_channels_trim(channels: *mut Channels) -> u32;
    pub fn sctp_channels_shutdown(channels: *mut Channels) -> u32;
    pub fn sctp_channels_abort(
        channels: *mut Channels,
        reason: *const u8,
        reason_length: usize,
        buffer: *mut u8,
        buffer_length: usize,
        length: *mut usize,
    ) -> u32;
    pub fn sctp_channels_status(channels: *mut Channels, status: *mut Status) -> u32;
    pub fn sctp_channels_path(channels: *mut Channels, path: *mut Path) -> u32;
    pub fn sctp_channels_counts(channels: *mut Channels, counts: *mut Counts) -> u32;
}
