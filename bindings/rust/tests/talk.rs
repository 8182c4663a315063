use sctp_endpoint::{abort_cause, key_derived, peek_packet, random_key, version, AbortCause, Config, Draw, Dropped, Ended, Endpoint, Error, Fate, Reason, Reset, State, Verdict, VerdictInto, LONGEST_PACKET, MOST_TICKETS};
use std::num::NonZeroU32;

fn draw(tag: u32) -> Draw {
    Draw { tag: NonZeroU32::new(tag).unwrap(), tsn: tag * 1_000 }
}

/// Packets go to and fro until neither endpoint has one.
fn exchange(a: &mut Endpoint, b: &mut Endpoint, now: u64) -> Vec<u64> {
    let mut tickets = Vec::new();
    for from_a in [true, false].into_iter().cycle().take(40) {
        let (from, to) = if from_a { (&mut *a, &mut *b) } else { (&mut *b, &mut *a) };
        while let Some(sent) = from.poll_transmit(now).unwrap() {
            tickets.extend(sent.tickets);
            if let Verdict::Answer(answer) = to.handle_packet(now, &sent.packet, draw(9)).unwrap() {
                from.handle_packet(now, &answer, draw(11)).unwrap();
            }
        }
    }
    tickets
}

fn opened() -> (Endpoint, Endpoint) {
    let mut caller = Endpoint::caller(&Config::new(5_000, 5_001)).unwrap();
    let mut listener = Endpoint::listener(&Config::new(5_001, 5_000), [7; 32]).unwrap();
    caller.connect(0, draw(7)).unwrap();
    exchange(&mut caller, &mut listener, 0);
    (caller, listener)
}

#[test]
fn two_endpoints_open_talk_and_close() {
    let (mut caller, mut listener) = opened();
    assert_eq!(caller.status().state, State::Established);
    let long = vec![5; 65_536];
    assert_eq!(caller.send(3, true, 51, b"Hi", None), Ok(1));
    assert_eq!(caller.send(4, false, 52, &long, None), Ok(2));
    assert_eq!((caller.status().queued, caller.status().queued_bytes, caller.status().peer_window), (2, 65_538, 4 << 20));
    assert_eq!(exchange(&mut caller, &mut listener, 10), [1, 2]);
    caller.trim();
    listener.trim();
    assert_eq!((listener.readable(0), listener.readable(4), listener.readable(5)), (Some(3), Some(4), None));
    let hi = listener.take(3).unwrap();
    assert_eq!((hi.stream, hi.ordered, hi.number, hi.payload_id, &hi.bytes[..]), (3, true, Some(0), 51, &b"Hi"[..]));
    assert_eq!(listener.status().held_bytes, 65_536);
    assert_eq!(listener.take(4).unwrap().bytes, long);
    assert_eq!(listener.take(4), None);
    assert!(caller.acknowledged(2) && !caller.abandoned(2));
    assert_eq!(caller.abandon(2), Fate::Acknowledged);
    caller.shutdown().unwrap();
    exchange(&mut caller, &mut listener, 20);
    assert_eq!(caller.status().ended, Some(Ended::Completed));
    assert_eq!(listener.status().ended, Some(Ended::Completed));
}

#[test]
fn refusals_say_why() {
    let mut config = Config::new(5_000, 5_001);
    config.buffer = 1;
    assert_eq!(Endpoint::caller(&config).unwrap_err(), Error::BadBuffer);
    let (mut caller, mut listener) = opened();
    assert_eq!(caller.connect(0, draw(7)), Err(Error::BadState));
    assert_eq!(caller.send(64, true, 0, b"x", None), Err(Error::NoSuchStream));
    assert_eq!(caller.send(0, true, 0, b"", None), Err(Error::Empty));
    assert_eq!(caller.send(0, true, 0, &[0; 65_537], None), Err(Error::TooLong));
    assert_eq!(caller.handle_packet(0, b"x", draw(7)), Ok(Verdict::Dropped(Reason::Fault)));
    assert_eq!(caller.abort(&[0; 1_500]), Err(Error::TooLong));
    let abort = caller.abort(b"enough").unwrap();
    assert_eq!(abort_cause(&abort), Some(AbortCause { cause: 12, info: b"enough".to_vec() }));
    assert_eq!(abort_cause(b"enough"), None);
    let header = peek_packet(&abort).unwrap();
    assert_eq!((header.source, header.destination, header.tag), (5_000, 5_001, 9));
    assert_eq!(peek_packet(&abort[..11]), None);
    assert_eq!(listener.handle_packet(0, &abort, draw(8)), Ok(Verdict::Taken));
    assert_eq!(listener.status().ended, Some(Ended::Aborted));
    assert_eq!(caller.status().ended, Some(Ended::AbortedHere));
    assert_eq!(caller.send(0, true, 0, b"x", None), Err(Error::NotOpen));
}

#[test]
fn a_tag_is_told_while_packets_carry_it() {
    let mut caller = Endpoint::caller(&Config::new(5_000, 5_001)).unwrap();
    let mut listener = Endpoint::listener(&Config::new(5_001, 5_000), random_key().unwrap()).unwrap();
    assert_eq!((caller.own_tag(), listener.own_tag(), listener.status().own_tag), (None, None, None));
    caller.connect(0, draw(7)).unwrap();
    assert_eq!(caller.own_tag(), NonZeroU32::new(7));
    exchange(&mut caller, &mut listener, 0);
    assert_eq!((listener.own_tag(), listener.status().own_tag), (NonZeroU32::new(9), NonZeroU32::new(9)));
    let packet = caller.abort(b"").unwrap();
    assert_eq!(peek_packet(&packet).unwrap().tag, 9);
    assert_eq!(caller.own_tag(), None);
}

#[test]
fn keys_are_derived_and_none_is_zero() {
    assert_eq!(Endpoint::listener(&Config::new(5_001, 5_000), [0; 32]).unwrap_err(), Error::ZeroKey);
    assert_eq!(key_derived(&[0; 32], b"message"), Err(Error::ZeroKey));
    let mut master = [0; 32];
    master[0] = 7;
    let key = key_derived(&master, b"message").unwrap(); // by Python's hmac
    assert_eq!((key[..4].to_vec(), key[31]), (vec![0x83, 0x37, 0xea, 0xb2], 0x29));
    assert_ne!(key_derived(&master, b"massage").unwrap(), key);
    let (one, other) = (Draw::random().unwrap(), Draw::random().unwrap());
    assert!((one.tag, one.tsn) != (other.tag, other.tsn));
}

#[test]
fn endpoints_opened_without_packets_talk() {
    let mut a = Endpoint::opened(&Config::new(5_000, 5_001), draw(7), draw(9)).unwrap();
    let mut b = Endpoint::opened(&Config::new(5_001, 5_000), draw(9), draw(7)).unwrap();
    b.send(0, true, 0, b"Hi", Some(50)).unwrap();
    b.on_moment(60);
    assert_eq!(b.abandon(1), Fate::Withdrawn);
    b.send(0, true, 0, b"Ho", None).unwrap();
    exchange(&mut a, &mut b, 60);
    assert_eq!(a.take(0).unwrap().bytes, b"Ho");
}

#[test]
fn a_message_is_abandoned_at_its_limit_of_retransmissions() {
    let (mut caller, mut listener) = opened();
    assert_eq!(caller.send_with_max_retransmits(0, true, 0, b"Hi", None, 0), Ok(1));
    assert_eq!(caller.send_with_max_retransmits(0, true, 0, b"Ho", None, 1), Ok(2));
    while caller.poll_transmit(10).unwrap().is_some() {} // lost
    caller.on_moment(5_000);
    assert_eq!([1, 2].map(|ticket| caller.abandoned(ticket)), [true, false]);
    exchange(&mut caller, &mut listener, 5_000);
    assert_eq!(listener.take(0).unwrap().bytes, b"Ho");
    assert!(listener.take(0).is_none());
    assert_eq!(caller.send_with_max_retransmits(64, true, 0, b"x", None, 0), Err(Error::NoSuchStream));
}

#[test]
fn an_endpoint_goes_to_another_thread() {
    let (caller, mut listener) = opened();
    let mut caller = std::thread::spawn(move || {
        let mut caller = caller;
        assert_eq!(caller.send(0, true, 0, b"Hi", None), Ok(1));
        caller
    })
    .join()
    .unwrap();
    assert_eq!(exchange(&mut caller, &mut listener, 10), [1]);
    assert_eq!(listener.take(0).unwrap().bytes, b"Hi");
}

#[test]
fn buffers_of_the_caller_are_enough() {
    let (mut caller, mut listener) = opened();
    let (mut packet, mut answer, mut tickets) = ([0; LONGEST_PACKET], [0; LONGEST_PACKET], [0; MOST_TICKETS]);
    caller.send(3, false, 51, b"Hello", None).unwrap();
    assert_eq!(caller.poll_transmit_into(10, &mut packet[..100], &mut tickets), Err(Error::NeedsRoom(1_232)));
    let sent = caller.poll_transmit_into(10, &mut packet, &mut tickets).unwrap().unwrap();
    assert_eq!((sent.tickets, tickets[0]), (1, 1));
    let verdict = listener.handle_packet_into(10, &packet[..sent.length], draw(9), &mut answer);
    assert_eq!(verdict, Ok(VerdictInto::Taken));
    assert_eq!(listener.take_into(3, &mut answer[..4]), Err(Error::NeedsRoom(5)));
    assert_eq!(listener.peek(3).unwrap().length, 5);
    let head = listener.take_into(3, &mut answer).unwrap().unwrap();
    assert_eq!((head.length, head.ordered, head.payload_id, &answer[..5]), (5, false, 51, &b"Hello"[..]));
    assert_eq!(listener.take_into(3, &mut answer), Ok(None));
}

#[test]
fn a_stream_is_reset() {
    let ends = [(5_000, 5_001, 7, 9), (5_001, 5_000, 9, 7)].map(|(own_port, peer_port, own, peer)| {
        let config = Config { stream_reset: true, ..Config::new(own_port, peer_port) };
        Endpoint::opened(&config, draw(own), draw(peer)).unwrap()
    });
    let [mut a, mut b] = ends;
    a.send(3, true, 0, b"Hi", None).unwrap();
    assert_eq!(a.reset(64), Err(Error::NoSuchStream));
    assert_eq!(a.reset(3), Ok(()));
    assert_eq!(a.send(3, true, 0, b"Ho", None), Err(Error::Resetting));
    assert!(a.resetting(3) && !a.resetting(4) && a.status().resetting == 1);
    exchange(&mut a, &mut b, 10);
    assert!(!a.resetting(3) && a.status().resetting == 0);
    assert_eq!(b.take_reset(), Some(Reset { stream: 3, earlier: 1 }));
    assert_eq!(b.take_reset(), None);
    a.send(3, true, 0, b"Ho", None).unwrap();
    exchange(&mut a, &mut b, 10);
    assert_eq!([b.take(3).unwrap().bytes, b.take(3).unwrap().bytes], [b"Hi", b"Ho"]);
    let (mut without, _) = opened();
    assert_eq!(without.reset(0), Err(Error::BadState));
}

#[test]
fn errors_say_why() {
    assert_eq!(version(), env!("CARGO_PKG_VERSION"));
    assert_eq!(Error::QueueFull.to_string(), "1,024 messages are queued: send again after the next SACK");
    assert_eq!(Error::NeedsRoom(5).to_string(), "the buffer is too small: 5 bytes are needed");
}

#[test]
fn packets_and_what_they_carry_are_counted() {
    let mut a = Endpoint::opened(&Config::new(5_000, 5_001), draw(7), draw(9)).unwrap();
    let mut b = Endpoint::opened(&Config::new(5_001, 5_000), draw(9), draw(7)).unwrap();
    a.send(0, true, 0, b"Hi", None).unwrap();
    let lost = a.poll_transmit(0).unwrap().unwrap().packet.len() as u64;
    a.on_moment(1_000);
    let first = a.poll_transmit(1_000).unwrap().unwrap().packet;
    b.handle_packet(1_000, &first, draw(9)).unwrap();
    let sack = b.poll_transmit(1_000).unwrap().unwrap().packet;
    a.handle_packet(1_000, &sack, draw(11)).unwrap();
    a.handle_packet(1_000, &first[..11], draw(11)).unwrap();
    let (told, heard) = (a.counts(), b.counts());
    assert_eq!((told.packets_out, told.bytes_out), (2, lost + first.len() as u64));
    assert_eq!((told.packets_in, told.bytes_in), (2, 11 + sack.len() as u64));
    assert_eq!((told.first_sent, told.timer_retransmitted, told.fast_retransmitted), (1, 1, 0));
    assert_eq!((told.sacks_out, told.sacks_in, told.abandoned), (0, 1, 0));
    assert_eq!(told.dropped, Dropped { fault: 1, ports: 0, tag: 0, state: 0, cookie: 0 });
    assert_eq!((heard.packets_in, heard.bytes_in, heard.first_sent), (1, first.len() as u64, 0));
    assert_eq!((heard.packets_out, heard.bytes_out, heard.sacks_out, heard.sacks_in), (1, sack.len() as u64, 1, 0));
}

#[test]
fn bytes_of_a_message_in_part_are_counted() {
    let (mut caller, mut listener) = opened();
    caller.send(0, true, 0, &[5; 2_000], None).unwrap();
    let first = caller.poll_transmit(10).unwrap().unwrap();
    listener.handle_packet(10, &first.packet, draw(9)).unwrap();
    let status = listener.status();
    assert!(status.reassembly_bytes > 0 && u64::from(status.reassembly_bytes) == status.held_bytes);
    exchange(&mut caller, &mut listener, 10);
    assert_eq!((listener.status().held_bytes, listener.status().reassembly_bytes), (2_000, 0));
}
