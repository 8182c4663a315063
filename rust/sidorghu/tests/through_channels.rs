//! The endpoint below channels: what is read of it, and the memory that it is handed back.
#![cfg(feature = "channels")]

mod common;
use common::{carry, channels, draw, ms, settle};
use sidorghu::Ticket;
use sidorghu::channels::{ChannelOptions, Event, Reliability};

/// What each reader says.
macro_rules! read {
    ($it:expr) => {{
        let it = &$it;
        let of_path = (it.state(), it.ended(), it.next_moment(), it.config(), it.agreed(), it.path(), it.counts(), it.peer_window(), it.in_flight());
        let of_queue = (it.tickets(), it.outstanding(), it.queued(), it.queued_bytes(), it.queued_bytes_on(1, &[51]), it.acknowledged(Ticket(1)));
        let of_buffer = (it.held_bytes(), it.reassembly_bytes(), it.readable(0), it.next_readable(9), it.waiting(1, 0).map(|message| message.len()));
        let of_streams =
            (it.inbound(), it.outbound(), it.is_interleaved(), it.is_partial(), it.has_reset(), it.is_resetting(0), it.resetting_streams());
        let of_lifetimes = (it.abandoned(Ticket(1)), it.has_late(ms(99)), it.next_late(Ticket(0), ms(99)), it.next_to_give_up(Ticket(0), ms(99)));
        (of_path, of_queue, of_buffer, of_streams, of_lifetimes, it.next_at_limit(Ticket(0)), it.own_tag())
    }};
}

#[test]
fn an_endpoint_is_read_through_its_channels() {
    let (mut a, mut b) = channels();
    let once = ChannelOptions::new("").reliability(Reliability::MaxPacketLifetime(ms(9)));
    for channels in [&mut a, &mut b] {
        channels.open_negotiated(1, &once).unwrap();
        channels.open_negotiated(0, &once).unwrap();
        channels.send(ms(1), 1, "from here").unwrap();
    }
    carry(&mut a, &mut b, ms(2));
    carry(&mut b, &mut a, ms(3));
    a.close(0).unwrap();
    a.send(ms(4), 1, "queued").unwrap();
    let through_channels = read!(a);
    assert_eq!((through_channels.1.2, through_channels.2.2, through_channels.3.6), (1, Some(1), 1));
    assert_eq!(through_channels.4.2, Some(Ticket(2)));
    assert_eq!(format!("{through_channels:?}"), format!("{:?}", read!(a.into_endpoint())));
}

#[test]
fn memory_is_handed_back() {
    let (mut a, mut b) = channels();
    for channels in [&mut a, &mut b] {
        channels.open_negotiated(1, &ChannelOptions::new("")).unwrap();
    }
    for round in 0..3 {
        let ticket = a.send(ms(round), 1, "text").unwrap();
        let sent = a.poll_transmit(ms(round)).unwrap().unwrap();
        assert_eq!(sent.tickets, [ticket]);
        let _ = b.handle_packet(ms(round), &sent.packet, draw(9)).unwrap();
        a.recycle(sent);
        let Ok(Some(Event::Message { payload, .. })) = b.next_event() else { panic!("no message") };
        b.give_back_payload(payload);
        let answer = b.poll_transmit(ms(round)).unwrap().unwrap();
        let _ = a.handle_packet(ms(round), &answer.packet, draw(9)).unwrap();
        b.recycle_packet(answer.packet);
        b.recycle_tickets(answer.tickets);
        b.trim();
    }
    let mut endpoint = b.into_endpoint();
    a.send(ms(9), 1, "taken").unwrap();
    settle(&mut a, &mut endpoint, ms(9));
    let message = endpoint.take(1).unwrap();
    endpoint.give_back(message);
    endpoint.trim();
}
