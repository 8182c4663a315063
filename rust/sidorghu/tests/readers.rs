//! What an endpoint and its values say of themselves.

mod common;
use common::{carry, config, draw, ms, pair, pair_of, settle};
use sidorghu::{Agreed, BufferTooSmall, Config, ConfigError, ConnectError, Draw, Endpoint, Key, SendError, SendOptions, Ticket};
use std::collections::{BTreeSet, HashSet};
use std::error::Error;
use std::time::Duration;

#[test]
fn readers_before_an_association() {
    let endpoint = Endpoint::caller(config(true));
    assert_eq!((endpoint.inbound(), endpoint.outbound(), endpoint.agreed()), (0, 0, None));
    assert_eq!((endpoint.outstanding(), endpoint.queued(), endpoint.queued_bytes(), endpoint.peer_window()), (0, 0, 0, 0));
    assert_eq!((endpoint.held_bytes(), endpoint.reassembly_bytes(), endpoint.in_flight()), (0, 0, 0));
    assert_eq!((endpoint.path(), endpoint.next_moment(), endpoint.ended(), endpoint.own_tag()), (None, None, None, None));
    assert_eq!((endpoint.is_interleaved(), endpoint.is_partial(), endpoint.has_late(ms(9))), (false, false, false));
    assert_eq!(endpoint.config(), config(true));
}

#[test]
fn readers_of_an_association() {
    let (mut a, mut b) = pair();
    assert_eq!(a.agreed(), Some(Agreed { outbound: 4, inbound: 4, interleave: true, partial: true }));
    assert!(a.is_interleaved() && a.is_partial());
    assert_eq!((a.own_tag(), b.own_tag().is_some()), (Some(7), true));
    assert_eq!((a.inbound(), a.outbound(), a.peer_window()), (4, 4, 65_536));
    let options = SendOptions::new().payload_id(51);
    a.send(1, &[1; 100], options).unwrap();
    a.send(2, &[1; 10], options).unwrap();
    assert_eq!((a.queued(), a.queued_bytes(), a.queued_bytes_on(1, &[51, 51]), a.queued_bytes_on(1, &[53])), (2, 110, 100, 0));
    carry(&mut a, &mut b, ms(7));
    assert_eq!((a.queued(), a.outstanding(), a.in_flight(), b.held_bytes(), b.reassembly_bytes()), (0, 2, 110, 110, 0));
    assert_eq!(a.next_moment(), Some(ms(1_007)));
    carry(&mut b, &mut a, ms(107));
    let path = a.path().unwrap(); // after round trips of 0 and 100 ms
    assert_eq!((path.srtt, path.rttvar, path.rto), (Some(ms(12)), Some(ms(25)), ms(1_000)));
    assert_eq!((path.cwnd, path.ssthresh.is_some()), (Some(4_404), true));
    assert_eq!((a.outstanding(), a.in_flight(), a.next_moment()), (0, 0, None));
    let (sent, heard) = (a.counts(), b.counts());
    assert_eq!((sent.packets_out, sent.packets_in, sent.first_sent, sent.sacks_in), (3, 3, 2, 1));
    assert_eq!((heard.packets_in, heard.packets_out, heard.sacks_out), (3, 3, 1));
    assert_eq!(sent.bytes_out, heard.bytes_in);
}

#[test]
fn a_message_in_part_waits_for_reassembly() {
    let (mut a, mut b) = pair();
    a.send(0, &[5; 3_000], SendOptions::new()).unwrap();
    carry(&mut a, &mut b, ms(1));
    assert_eq!((b.held_bytes(), b.reassembly_bytes(), b.readable(0)), (1_200, 1_200, None));
    settle(&mut a, &mut b, ms(1));
    assert_eq!((b.held_bytes(), b.reassembly_bytes(), b.readable(0)), (3_000, 0, Some(0)));
}

#[test]
fn times_are_whole_milliseconds() {
    let (mut a, _) = pair();
    a.send(0, b"x", SendOptions::new().until(Duration::from_micros(20_001))).unwrap();
    assert!(!a.has_late(Duration::from_micros(20_999)));
    assert!(a.has_late(ms(21)));
    a.send(0, b"x", SendOptions::new().until(Duration::MAX)).unwrap();
    a.on_moment(Duration::MAX);
    assert_eq!(a.queued(), 0);
    let least = |least| Config::builder(1, 2).rto_min(least).build().unwrap().rto_min();
    assert_eq!((least(Duration::from_micros(1)), least(Duration::MAX)), (ms(1), ms(u64::from(u32::MAX))));
}

#[test]
fn a_configuration_is_what_was_asked_for() {
    let plain = Config::builder(1, 2).build().unwrap();
    assert_eq!((plain.own_port(), plain.peer_port(), plain.packet_limit(), plain.fragment(), plain.receive_buffer()), (1, 2, 1_232, 1_200, 4 << 20));
    assert_eq!((plain.outbound(), plain.inbound(), plain.rto_min()), (64, 64, Duration::from_secs(1)));
    assert!(plain.interleaving() && plain.partial_reliability() && plain.stream_reset() && plain.congestion_control() && plain.fast_retransmit());
    assert!(plain.standard_closing() && !plain.delayed_sacks());
    let other = Config::builder(1, 2).interleaving(false).partial_reliability(false).stream_reset(false).delayed_sacks(true);
    let other = other.standard_closing(false).congestion_control(false).fast_retransmit(false).fragment(100).build().unwrap();
    assert!(!other.interleaving() && !other.partial_reliability() && !other.stream_reset() && !other.congestion_control());
    assert!(!other.standard_closing() && other.delayed_sacks() && !other.fast_retransmit());
    let web = Config::for_data_channels(5_000, 5_000).unwrap();
    assert_eq!((web.packet_limit(), web.fragment(), web.receive_buffer(), web.outbound()), (1_188, 1_156, 1 << 20, 1_024));
    assert_eq!(web.to_builder().build(), Ok(web));
    for config in [plain, other, web] {
        let moved = config.with_peer_port(65_535).unwrap();
        assert_eq!((moved.own_port(), moved.peer_port()), (config.own_port(), 65_535));
        assert_eq!(moved.with_peer_port(config.peer_port()), Ok(config));
        assert_eq!(config.with_peer_port(0), Err(ConfigError::Port));
    }
}

#[test]
fn a_configuration_is_refused_for_the_first_fault() {
    let ok = Config::builder(1, 2);
    for (settings, fault) in [
        (Config::builder(0, 2).packet_limit(9), ConfigError::Port),
        (Config::builder(1, 0), ConfigError::Port),
        (ok.packet_limit(575), ConfigError::PacketLimit),
        (ok.packet_limit(1_501).fragment(3), ConfigError::PacketLimit),
        (ok.fragment(3), ConfigError::Fragment),
        (ok.fragment(1_201), ConfigError::Fragment),
        (ok.receive_buffer(65_535), ConfigError::Buffer),
        (ok.receive_buffer((16 << 20) + 1).streams(0, 1), ConfigError::Buffer),
        (ok.streams(0, 1), ConfigError::Streams),
        (ok.streams(1, 1_025), ConfigError::Streams),
    ] {
        assert_eq!(settings.build(), Err(fault));
    }
    assert_eq!(Config::for_data_channels(0, 1), Err(ConfigError::Port));
    for limit in 576..=1_500 {
        let config = ok.packet_limit(limit).build().unwrap();
        assert!(config.fragment() == 1_400 || config.fragment() + 36 > limit);
    }
}

#[test]
fn secrets_are_not_shown() {
    let (mut a, _) = pair_of(config(true), config(false));
    a.send(0, b"text", SendOptions::new()).unwrap();
    let shown = format!("{a:?} {:?} {:?}", draw(77), Key::new([77; 32]));
    assert_eq!(shown, "Endpoint { state: Established, ended: None, outstanding: 0, queued: 1, queued_bytes: 4, held_bytes: 0, .. } Draw(..) Key(..)");
}

#[test]
fn values_are_what_they_were_made_with() {
    assert_eq!(Draw::new(0, 5), None);
    let draw = Draw::new(6, 5).unwrap();
    assert_eq!((draw.tag(), draw.tsn()), (6, 5));
    assert_eq!((Draw::from_random([0; 8]).tag(), Draw::from_random([1; 8]).tag()), (1, 0x0101_0101));
    let tickets = [Ticket(2), Ticket(1), Ticket(2)];
    assert_eq!(tickets.iter().collect::<HashSet<_>>().len(), 2);
    assert_eq!(tickets.iter().collect::<BTreeSet<_>>().first(), Some(&&Ticket(1)));
    assert_eq!(Ticket(12).to_string(), "12");
}

#[test]
fn errors_say_what_happened() {
    let boxed: Box<dyn Error + Send + Sync> = ConnectError::State.into();
    assert_eq!(boxed.to_string(), "the endpoint is a listener, or has been used already");
    assert!(boxed.source().is_none());
    assert_eq!(SendError::QueueFull.to_string(), "too many messages wait");
    let (mut a, mut b) = pair();
    a.send(0, b"four", SendOptions::new()).unwrap();
    settle(&mut a, &mut b, ms(1));
    let fault: BufferTooSmall = b.take(0).unwrap().copy_into(&mut []).unwrap_err();
    assert_eq!(fault.to_string(), "the message has 4 bytes, more than the buffer");
}

#[test]
fn what_a_program_keeps_may_go_to_threads() {
    fn goes<T: Send + Sync + Unpin>() {}
    goes::<Endpoint>();
    #[cfg(feature = "channels")]
    goes::<sidorghu::Channels>();
    #[cfg(feature = "channels")]
    goes::<sidorghu::channels::Event>();
    goes::<SendError>();
}
