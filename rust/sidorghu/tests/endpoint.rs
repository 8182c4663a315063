//! Each call of an endpoint, with its answer.

mod common;
use common::{carry, config, draw, lose, ms, pair, pair_of, settle};
use sidorghu::{
    AbortError, ConnectError, Draw, End, Endpoint, Fate, Key, LONGEST_MESSAGE, QUEUE_LIMIT, Reset, ResetError, SendError, SendOptions, ShutdownError,
    State, Ticket, Verdict, abort_cause,
};

const PLAIN: SendOptions = SendOptions::new();

#[test]
fn a_message_is_sent_taken_and_acknowledged() {
    let (mut a, mut b) = pair();
    assert_eq!((a.state(), b.state()), (State::Established, State::Established));
    let options = SendOptions::new().payload_id(51);
    assert_eq!(a.send(1, b"first", options), Ok(Ticket(1)));
    assert_eq!(a.send(1, &[3; 3_000], options.unordered()), Ok(Ticket(2)));
    assert!(!a.acknowledged(Ticket(1)));
    let sent = a.poll_transmit(ms(1)).unwrap().unwrap();
    assert_eq!(sent.tickets, [Ticket(1)]);
    assert_eq!(b.handle_packet(ms(1), &sent.packet, draw(9)), Ok(Verdict::Taken));
    a.recycle(sent);
    settle(&mut a, &mut b, ms(1));
    let first = b.take(1).unwrap();
    assert_eq!((first.stream(), first.is_ordered(), first.payload_id(), first.number(), first.len()), (1, true, 51, Some(0), 5));
    assert_eq!(first.to_vec().unwrap(), b"first");
    let second = b.take(1).unwrap();
    assert_eq!((second.is_ordered(), second.len(), second.parts().len()), (false, 3_000, 3));
    assert_eq!(second.parts().flatten().copied().collect::<Vec<u8>>(), [3; 3_000]);
    b.give_back(second);
    assert_eq!(b.take(1), None);
    assert!(a.acknowledged(Ticket(1)) && a.acknowledged(Ticket(2)));
    assert_eq!(a.tickets(), 2);
}

#[test]
fn bytes_of_a_message_are_copied_where_there_is_space() {
    let (mut a, mut b) = pair();
    a.send(0, b"four", PLAIN).unwrap();
    settle(&mut a, &mut b, ms(1));
    let message = b.take(0).unwrap();
    let (mut small, mut large) = ([0; 3], [9; 6]);
    assert_eq!(message.copy_into(&mut small).unwrap_err().needed, 4);
    assert_eq!(small, [0; 3]);
    assert_eq!(message.copy_into(&mut large), Ok(4));
    assert_eq!(&large, b"four\x09\x09");
    let mut list = b"> ".to_vec();
    assert_eq!(message.append_to(&mut list), Ok(()));
    assert_eq!(list, b"> four");
}

#[test]
fn streams_take_turns() {
    let (mut a, mut b) = pair();
    for (stream, text) in [(0, b"a"), (0, b"b"), (3, b"c")] {
        a.send(stream, text, PLAIN).unwrap();
    }
    settle(&mut a, &mut b, ms(1));
    assert_eq!((b.readable(0), b.readable(1), b.readable(4)), (Some(0), Some(3), None));
    assert_eq!((b.next_readable(1), b.next_readable(4)), (Some(3), Some(0)));
    assert_eq!(b.waiting(0, 1).unwrap().to_vec().unwrap(), b"b");
    assert!(b.waiting(0, 2).is_none());
    let mut from = 0;
    let taken = std::iter::from_fn(|| {
        let message = b.take_next(from)?;
        from = message.stream() + 1;
        Some(message.to_vec().unwrap())
    });
    assert_eq!(taken.collect::<Vec<_>>(), [b"a", b"c", b"b"]);
}

#[test]
fn connect_is_for_a_new_caller() {
    let mut caller = Endpoint::caller(config(true));
    assert_eq!((caller.state(), caller.agreed()), (State::Closed, None));
    assert_eq!(caller.connect(ms(5), draw(7)), Ok(()));
    assert_eq!(caller.state(), State::CookieWait);
    assert_eq!(caller.connect(ms(6), draw(8)), Err(ConnectError::State));
    let mut listener = Endpoint::listener(config(false), Key::from([7; 32]));
    assert_eq!(listener.connect(ms(0), draw(7)), Err(ConnectError::State));
    assert_eq!(listener.state(), State::Listen);
}

#[test]
fn opened_endpoints_are_established() {
    let mut a = Endpoint::opened(config(true), draw(1), draw(2)).unwrap();
    let mut b = Endpoint::opened(config(false), draw(2), draw(1)).unwrap();
    a.send(0, b"at once", PLAIN).unwrap();
    settle(&mut a, &mut b, ms(0));
    assert_eq!(b.take(0).unwrap().to_vec().unwrap(), b"at once");
}

#[test]
fn send_refuses_for_the_first_reason() {
    assert_eq!(Endpoint::caller(config(true)).send(0, b"x", PLAIN), Err(SendError::NotOpen));
    let (mut a, _) = pair();
    let long = vec![0; LONGEST_MESSAGE + 9];
    assert_eq!(a.send(4, b"x", PLAIN), Err(SendError::NoSuchStream));
    assert_eq!(a.send(4, &long, PLAIN), Err(SendError::NoSuchStream));
    assert_eq!(a.send(0, b"", PLAIN), Err(SendError::Empty));
    assert_eq!(a.send(0, &long, PLAIN), Err(SendError::TooLong));
    assert_eq!(a.tickets(), 0);
    assert_eq!(a.send(0, &long[..LONGEST_MESSAGE], PLAIN), Ok(Ticket(1)));
    for number in 2..=QUEUE_LIMIT as u64 {
        assert_eq!(a.send(0, b"x", PLAIN), Ok(Ticket(number)));
    }
    assert_eq!(a.send(0, b"x", PLAIN), Err(SendError::QueueFull));
    assert_eq!((a.queued(), a.queued_bytes()), (1_024, 65_536 + 1_023));
    a.reset(1).unwrap();
    assert_eq!(a.send(1, b"x", PLAIN), Err(SendError::Resetting));
}

#[test]
fn messages_are_abandoned_by_request_by_time_and_by_a_limit() {
    let (mut a, mut b) = pair();
    let queued = a.send(0, b"queued", PLAIN).unwrap();
    assert_eq!((a.abandon(queued), a.abandon(queued)), (Fate::Withdrawn, Fate::Withdrawn));
    assert_eq!(a.abandon(Ticket(9)), Fate::Unknown);
    let sent = a.send(0, b"sent", PLAIN).unwrap();
    lose(&mut a, ms(1));
    assert_eq!(a.abandon(sent), Fate::Abandoned);
    assert!(a.abandoned(sent) && !a.acknowledged(sent));
    settle(&mut a, &mut b, ms(1));

    let late = a.send(0, b"late", PLAIN.until(ms(50))).unwrap();
    lose(&mut a, ms(2));
    assert_eq!((a.has_late(ms(49)), a.next_late(Ticket(0), ms(49))), (false, None));
    assert_eq!((a.has_late(ms(50)), a.next_late(Ticket(0), ms(50)), a.next_late(late, ms(50))), (true, Some(late), None));
    a.on_moment(ms(50));
    assert!(a.abandoned(late));
    settle(&mut a, &mut b, ms(50));

    let limited = a.send(0, b"once", PLAIN.max_retransmits(0)).unwrap();
    lose(&mut a, ms(60));
    assert_eq!(a.next_at_limit(Ticket(0)), Some(limited));
    let expiry = a.next_moment().unwrap();
    assert_eq!((a.next_to_give_up(Ticket(0), ms(61)), a.next_to_give_up(Ticket(0), expiry)), (None, Some(limited)));
    a.on_moment(expiry);
    assert_eq!(a.abandon(limited), Fate::Abandoned);
    settle(&mut a, &mut b, expiry);
    let last = a.send(0, b"arrives", PLAIN).unwrap();
    settle(&mut a, &mut b, expiry);
    assert_eq!(a.abandon(last), Fate::Acknowledged);
    assert_eq!(b.take(0).unwrap().to_vec().unwrap(), b"arrives");
    assert_eq!(a.counts().abandoned, 3);
}

#[test]
fn without_partial_reliability_a_sent_message_stays() {
    let reliable = |first: bool| config(first).to_builder().partial_reliability(false).build().unwrap();
    let (mut a, mut b) = pair_of(reliable(true), reliable(false));
    let ticket = a.send(0, b"sent", PLAIN).unwrap();
    carry(&mut a, &mut b, ms(1));
    assert_eq!(a.abandon(ticket), Fate::Reliable);
}

#[test]
fn a_stream_is_reset() {
    let (mut a, mut b) = pair();
    assert_eq!(a.reset(4), Err(ResetError::NoSuchStream));
    assert_eq!(Endpoint::caller(config(true)).reset(0), Err(ResetError::State));
    a.send(2, b"before", PLAIN).unwrap();
    assert_eq!(a.reset(2), Ok(()));
    assert_eq!((a.is_resetting(2), a.is_resetting(1), a.resetting_streams()), (true, false, 1));
    settle(&mut a, &mut b, ms(1));
    assert_eq!((a.is_resetting(2), a.resetting_streams()), (false, 0));
    assert!(b.has_reset());
    assert_eq!(b.take_reset(), Some(Reset { stream: 2, count: 1 }));
    assert_eq!((b.has_reset(), b.take_reset()), (false, None));
}

#[test]
fn an_association_is_shut_down() {
    let (mut a, mut b) = pair();
    assert_eq!(Endpoint::caller(config(true)).shutdown(), Err(ShutdownError::NotOpen));
    a.send(0, b"last", PLAIN).unwrap();
    assert_eq!(a.shutdown(), Ok(()));
    assert_eq!(a.state(), State::ShutdownPending);
    assert_eq!(a.send(0, b"x", PLAIN), Err(SendError::NotOpen));
    settle(&mut a, &mut b, ms(1));
    assert_eq!((a.ended(), b.ended()), (Some(End::Completed), Some(End::Completed)));
    assert_eq!(a.next_moment(), None);
    assert_eq!(a.shutdown(), Err(ShutdownError::NotOpen));
    assert_eq!(b.take(0).unwrap().to_vec().unwrap(), b"last");
}

#[test]
fn an_association_is_aborted() {
    let (mut a, mut b) = pair();
    assert_eq!(Endpoint::caller(config(true)).abort(b""), Err(AbortError::State));
    assert_eq!(a.abort(&[0; 1_300]), Err(AbortError::TooLong));
    let packet = a.abort(b"enough").unwrap();
    assert_eq!(a.ended(), Some(End::AbortedHere));
    let cause = abort_cause(&packet).unwrap();
    assert_eq!((cause.code, cause.info), (12, &b"enough"[..]));
    assert_eq!(b.handle_packet(ms(1), &packet, draw(9)), Ok(Verdict::Taken));
    assert_eq!(b.ended(), Some(End::Aborted));
    a.recycle_packet(packet);
}

#[test]
fn an_endpoint_that_nobody_answers_times_out() {
    let mut a = Endpoint::caller(config(true));
    a.connect(ms(0), Draw::from_random([0; 8])).unwrap();
    while let Some(time) = {
        lose(&mut a, ms(0));
        a.next_moment()
    } {
        a.on_moment(time);
    }
    assert_eq!((a.ended(), a.state()), (Some(End::TimedOut), State::Closed));
}
