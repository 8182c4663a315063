//! What is said of packets.

mod common;
use common::{carry, config, draw, lose, ms, pair, settle};
use sidorghu::{Config, Endpoint, Key, Reason, SendOptions, State, Verdict, abort_cause, peek_packet};

#[test]
fn packets_say_what_they_are() {
    let mut a = Endpoint::caller(config(true));
    a.connect(ms(0), draw(7)).unwrap();
    let init = a.poll_transmit(ms(0)).unwrap().unwrap().packet;
    let header = peek_packet(&init).unwrap();
    assert_eq!((header.source, header.destination, header.tag), (5_000, 5_001, 0));
    assert_eq!((peek_packet(&init[..11]), abort_cause(&init)), (None, None));
    assert!(abort_cause(b"no packet").is_none());
}

#[test]
fn packets_are_dropped_for_the_first_reason() {
    let (mut a, mut b) = pair();
    let mut other = Endpoint::caller(Config::builder(9, 5_001).build().unwrap());
    other.connect(ms(0), draw(3)).unwrap();
    let foreign = lose(&mut other, ms(0)).remove(0).packet;
    let mut stranger = Endpoint::opened(config(true), draw(3), draw(4)).unwrap();
    stranger.send(0, b"x", SendOptions::new()).unwrap();
    let untagged = lose(&mut stranger, ms(0)).remove(0).packet;
    let mut caller = Endpoint::caller(config(true));
    caller.connect(ms(0), draw(3)).unwrap();
    let init = lose(&mut caller, ms(0)).remove(0).packet;
    for (packet, reason) in [(&b"short"[..], Reason::Fault), (&foreign, Reason::Ports), (&untagged, Reason::Tag), (&init, Reason::State)] {
        assert_eq!(b.handle_packet(ms(1), packet, draw(9)), Ok(Verdict::Dropped(reason)));
    }
    let dropped = b.counts().dropped;
    assert_eq!((dropped.fault, dropped.ports, dropped.tag, dropped.state, dropped.cookie), (1, 1, 1, 1, 0));
    settle(&mut a, &mut b, ms(1));
    assert_eq!(b.state(), State::Established);
}

#[test]
fn a_cookie_of_another_key_is_dropped() {
    let mut caller = Endpoint::caller(config(true));
    caller.connect(ms(0), draw(7)).unwrap();
    let mut first = Endpoint::listener(config(false), Key::new([1; 32]));
    let mut second = Endpoint::listener(config(false), Key::new([2; 32]));
    assert!(carry(&mut caller, &mut first, ms(0)));
    let echo = lose(&mut caller, ms(0)).remove(0).packet;
    assert_eq!(second.handle_packet(ms(0), &echo, draw(9)), Ok(Verdict::Dropped(Reason::Cookie)));
    assert_eq!(first.handle_packet(ms(0), &echo, draw(9)), Ok(Verdict::Taken));
}

#[test]
fn keys_are_derived_from_a_secret_and_bytes() {
    let mut caller = Endpoint::caller(config(true));
    caller.connect(ms(0), draw(7)).unwrap();
    let listener = |address: &[u8]| Endpoint::listener(config(false), Key::derived(&[5; 32], address));
    assert!(carry(&mut caller, &mut listener(b"here"), ms(0)));
    let echo = lose(&mut caller, ms(0)).remove(0).packet;
    assert_eq!(listener(b"there").handle_packet(ms(0), &echo, draw(9)), Ok(Verdict::Dropped(Reason::Cookie)));
    assert_eq!(listener(b"here").handle_packet(ms(0), &echo, draw(9)), Ok(Verdict::Taken));
}
