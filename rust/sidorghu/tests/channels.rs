//! Each call of channels, with its answer.
#![cfg(feature = "channels")]

mod common;
use common::{carry, channels, config, draw, events, lose, ms, settle};
use sidorghu::channels::{
    ChannelOptions, ChannelSendError, CloseError, Content, ControlError, DtlsRole, Event, Ignored, OpenError, Refusal, Reliability, ThresholdError,
    Written,
};
use sidorghu::{AbortError, Channels, ConnectError, End, Endpoint, Fate, Key, ResetError, SendError, SendOptions, ShutdownError, State, Ticket};
use std::error::Error;
use std::time::Duration;

/// The texts that were received, with their streams.
fn texts(events: Vec<Event>) -> Vec<(u16, bool, Vec<u8>)> {
    let content = |it| match it {
        Event::Message { stream, text, payload } => Some((stream, text, payload.to_vec().unwrap())),
        _ => None,
    };
    events.into_iter().filter_map(content).collect()
}

#[test]
fn a_channel_is_opened_used_and_closed() {
    let (mut a, mut b) = channels();
    let options = ChannelOptions::new("chat").protocol("v1").unordered().reliability(Reliability::MaxRetransmits(3)).priority(512);
    assert_eq!(a.open(&options), Ok(0));
    assert!(a.send(ms(1), 0, "early").is_ok());
    settle(&mut a, &mut b, ms(1));
    let mut reported = events(&mut b);
    assert_eq!(texts(reported.split_off(1)), [(0, true, b"early".to_vec())]);
    let Event::Incoming { stream: 0, parameters } = &reported[0] else { panic!("{reported:?}") };
    assert_eq!((parameters.label_text(), &parameters.protocol[..], parameters.ordered), (Some("chat"), &b"v1"[..], false));
    assert_eq!((parameters.reliability, parameters.priority), (Reliability::MaxRetransmits(3), 512));
    let shown = "Parameters { label: \"chat\", protocol: \"v1\", ordered: false, reliability: MaxRetransmits(3), priority: 512 }";
    assert_eq!(format!("{parameters:?}"), shown);
    settle(&mut a, &mut b, ms(2));
    assert_eq!(events(&mut a), [Event::Opened { stream: 0 }]);
    assert!(b.send(ms(3), 0, &[1, 2]).is_ok());
    assert!(b.send(ms(3), 0, Content::Text(b"\xff")).is_ok());
    assert!(b.send(ms(3), 0, "").is_ok());
    settle(&mut a, &mut b, ms(3));
    assert_eq!(texts(events(&mut a)), [(0, false, vec![1, 2]), (0, true, vec![0xff]), (0, true, vec![])]);
    assert_eq!(a.close(0), Ok(()));
    assert_eq!((a.close(0), a.send(ms(4), 0, "late")), (Err(CloseError::NoChannel), Err(ChannelSendError::NoChannel)));
    for _ in 0..2 {
        settle(&mut a, &mut b, ms(4));
        assert!(events(&mut b).iter().all(|it| *it == Event::Closed { stream: 0 }));
    }
    assert_eq!(events(&mut a), [Event::Closed { stream: 0 }]);
    assert_eq!(a.open(&ChannelOptions::new("again")), Ok(0));
}

#[test]
fn opening_is_refused_for_the_first_reason() {
    let config = sidorghu::Config::for_data_channels(1, 1).unwrap();
    let plain = ChannelOptions::new("x");
    let mut new = Channels::caller(config, DtlsRole::Client).unwrap();
    assert_eq!(new.open(&plain), Err(OpenError::NoStream));
    assert_eq!((new.open_on(0, &plain), new.open_negotiated(0, &plain)), (Err(OpenError::NoStream), Err(OpenError::NoStream)));
    let (mut a, _) = channels();
    let long = vec![b'x'; 65_525];
    assert_eq!(a.open(&ChannelOptions::new(&long)), Err(OpenError::TooLong));
    assert_eq!(a.open(&plain.reliability(Reliability::MaxRetransmits(65_536))), Err(OpenError::OutOfRange));
    let lifetime = |time| plain.reliability(Reliability::MaxPacketLifetime(time));
    assert_eq!(a.open(&lifetime(Duration::from_micros(65_535_001))), Err(OpenError::OutOfRange));
    assert_eq!(a.open_negotiated(6, &lifetime(Duration::MAX)), Err(OpenError::OutOfRange));
    assert_eq!(a.open_on(1_024, &plain), Err(OpenError::NoStream));
    assert_eq!(a.open_on(3, &plain), Err(OpenError::WrongHalf));
    assert_eq!((a.open_on(2, &plain), a.open_on(2, &plain)), (Ok(()), Err(OpenError::Used)));
    assert_eq!((a.open_negotiated(3, &lifetime(ms(65_535))), a.open_negotiated(3, &plain)), (Ok(()), Err(OpenError::Used)));
    a.shutdown().unwrap();
    assert_eq!(a.open(&plain), Err(OpenError::Refused(SendError::NotOpen)));
}

#[test]
fn negotiated_channels_are_open_at_once() {
    let (mut a, mut b) = channels();
    let options = ChannelOptions::new("agreed").ordered(false).reliability(Reliability::MaxPacketLifetime(ms(500)));
    assert_eq!((a.open_negotiated(100, &options), b.open_negotiated(100, &options)), (Ok(()), Ok(())));
    a.send(ms(1), 100, &b"binary".to_vec()).unwrap();
    a.send(ms(1), 100, &String::from("text")).unwrap();
    settle(&mut a, &mut b, ms(1));
    assert_eq!(texts(events(&mut b)), [(100, false, b"binary".to_vec()), (100, true, b"text".to_vec())]);
}

#[test]
fn lifetimes_of_a_channel_end_on_time() {
    let (mut a, mut b) = channels();
    let options = ChannelOptions::new("").reliability(Reliability::MaxPacketLifetime(ms(500)));
    a.open_negotiated(0, &options).unwrap();
    b.open_negotiated(0, &options).unwrap();
    let ticket = a.send(ms(100), 0, "lost").unwrap();
    lose(&mut a, ms(100));
    a.on_moment(ms(599));
    assert!(!a.abandoned(ticket));
    a.on_moment(ms(600));
    assert!(a.abandoned(ticket));
    assert_eq!(a.abandon(ticket), Fate::Abandoned);
}

#[test]
fn the_buffered_amount_is_known_and_reported_low() {
    let (mut a, mut b) = channels();
    assert_eq!(a.set_buffered_amount_low_threshold(0, 10), Err(ThresholdError::NoChannel));
    a.open_negotiated(0, &ChannelOptions::new("")).unwrap();
    assert_eq!(a.set_buffered_amount_low_threshold(0, 10), Ok(()));
    a.send(ms(1), 0, &[0; 11]).unwrap();
    assert_eq!((a.buffered_amount(0), a.buffered_amount(1)), (11, 0));
    assert_eq!(events(&mut a), []);
    settle(&mut a, &mut b, ms(1));
    assert_eq!(a.buffered_amount(0), 0);
    assert_eq!(events(&mut a), [Event::BufferedAmountLow { stream: 0 }]);
    assert_eq!(events(&mut a), []);
}

#[test]
fn messages_are_written_to_a_buffer() {
    let (mut a, mut b) = channels();
    let mut buffer = [0; 8];
    assert_eq!(b.next_message_into(&mut buffer), Written::Nothing);
    a.open(&ChannelOptions::new("x")).unwrap();
    a.send(ms(1), 0, "fits").unwrap();
    a.send(ms(1), 0, &[7; 9]).unwrap();
    settle(&mut a, &mut b, ms(1));
    assert_eq!(b.next_message_into(&mut buffer), Written::Other);
    assert!(matches!(b.next_event(), Ok(Some(Event::Incoming { stream: 0, .. }))));
    assert_eq!(b.next_message_into(&mut buffer), Written::Message { stream: 0, text: true, length: 4 });
    assert_eq!(&buffer[..4], b"fits");
    assert_eq!(b.next_message_into(&mut buffer), Written::Other);
    let Ok(Some(Event::Message { payload, .. })) = b.next_event() else { panic!("no message") };
    assert_eq!(payload.copy_into(&mut buffer).unwrap_err().needed, 9);
    assert_eq!((payload.len(), payload.is_empty(), payload.parts().count()), (9, false, 1));
    b.give_back_payload(payload);
}

#[test]
fn what_the_peer_may_not_do_is_reported() {
    let (mut a, mut b) = channels();
    a.open_negotiated(1, &ChannelOptions::new("")).unwrap();
    a.send(ms(1), 1, "to nobody").unwrap();
    settle(&mut a, &mut b, ms(1));
    assert_eq!(events(&mut b), [Event::Ignored { stream: 1, why: Ignored::NoChannel }]);
    b.open_negotiated(4, &ChannelOptions::new("")).unwrap();
    let mut peer = a.into_endpoint();
    for (stream, payload_id, bytes) in [(2, 50, &[9][..]), (3, 50, &[3, 0, 1, 0, 0, 0, 0, 0, 0, 0, 0, 0]), (4, 99, b"x"), (1, 50, &[2])] {
        peer.send(stream, bytes, SendOptions::new().payload_id(payload_id)).unwrap();
    }
    settle(&mut peer, &mut b, ms(2));
    let reported = events(&mut b);
    assert_eq!(reported.iter().map(Event::stream).collect::<Vec<_>>(), [2, 3, 4, 1]);
    assert_eq!(reported[0], Event::Refused { stream: 2, why: Refusal::BadOpening(ControlError::UnknownMessage) });
    assert_eq!(reported[1], Event::Refused { stream: 3, why: Refusal::WrongHalf });
    assert_eq!(reported[2], Event::Ignored { stream: 4, why: Ignored::OtherPayload });
    assert_eq!(reported[3], Event::Ignored { stream: 1, why: Ignored::StrayAck });
}

#[test]
fn calls_of_the_endpoint_are_passed_on() {
    let (mut a, mut b) = channels();
    assert_eq!((a.connect(ms(1), draw(3)), a.max_message_size()), (Err(ConnectError::State), 262_144));
    assert_eq!((a.state(), a.is_partial(), a.inbound()), (State::Established, true, 1_024));
    assert_eq!((a.abandon(Ticket(1)), a.ended(), a.next_moment()), (Fate::Unknown, None, None));
    a.open(&ChannelOptions::new("x")).unwrap();
    carry(&mut a, &mut b, ms(1));
    assert!(a.next_moment().is_some());
    a.trim();
    let packet = b.abort(b"over").unwrap();
    let _ = a.handle_packet(ms(2), &packet, draw(9)).unwrap();
    assert_eq!((a.ended(), b.ended()), (Some(End::Aborted), Some(End::AbortedHere)));
    assert_eq!(events(&mut a), [Event::Closed { stream: 0 }]);
    assert_eq!((a.shutdown(), a.abort(b"")), (Err(ShutdownError::NotOpen), Err(AbortError::State)));
    assert_eq!(a.send(ms(3), 0, "x"), Err(ChannelSendError::NoChannel));
}

#[test]
fn a_label_may_be_no_text() {
    let (mut a, mut b) = channels();
    a.open(&ChannelOptions::new(b"a\xff")).unwrap();
    settle(&mut a, &mut b, ms(1));
    let Ok(Some(Event::Incoming { parameters, .. })) = b.next_event() else { panic!("no channel") };
    assert_eq!((&parameters.label[..], parameters.label_text()), (&b"a\xff"[..], None));
    assert!(format!("{parameters:?}").starts_with("Parameters { label: b\"a\\xff\", protocol: \"\","));
}

#[test]
fn errors_say_what_happened_and_why() {
    let refused = OpenError::Refused(SendError::QueueFull);
    assert_eq!(refused.to_string(), "the endpoint doesn't take the DATA_CHANNEL_OPEN");
    assert_eq!(refused.source().unwrap().to_string(), "too many messages wait");
    assert!(ChannelSendError::NoChannel.source().is_none() && OpenError::Used.source().is_none());
    assert_eq!(CloseError::Refused(ResetError::State).source().unwrap().to_string(), ResetError::State.to_string());
    assert_eq!(Ignored::BadControl(ControlError::AckWithMore).to_string(), "bad message of DCEP: the DATA_CHANNEL_ACK has more than one byte");
    assert_eq!(Refusal::WrongHalf.to_string(), "the stream is one of this side's");
    let (one, _) = channels();
    assert!(format!("{one:?}").starts_with("Channels { state: Established"));
}

#[test]
fn channels_close_only_where_streams_are_reset() {
    let config = |first| config(first).to_builder().stream_reset(false).build().unwrap();
    let mut a = Channels::new(Endpoint::caller(config(true)), DtlsRole::Server).unwrap();
    let mut b = Channels::listener(config(false), Key::new([7; 32]), DtlsRole::Client).unwrap();
    a.connect(ms(0), draw(7)).unwrap();
    settle(&mut a, &mut b, ms(0));
    assert_eq!(a.open(&ChannelOptions::new("x")), Ok(1));
    assert_eq!(a.close(1), Err(CloseError::Refused(ResetError::State)));
    a.shutdown().unwrap();
    assert_eq!(a.send(ms(1), 1, "x"), Err(ChannelSendError::Refused(SendError::NotOpen)));
    assert_eq!(a.send(ms(1), 1, &[0; 65_537]), Err(ChannelSendError::Refused(SendError::NotOpen)));
}
