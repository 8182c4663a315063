use sctp_endpoint::{ChannelReason, Channels, Config, Content, Draw, Ended, Endpoint, Error, Event, Fate, Parameters, Reliability, State, Verdict};
use std::num::NonZeroU32;

fn draw(tag: u32) -> Draw {
    Draw { tag: NonZeroU32::new(tag).unwrap(), tsn: tag * 1_000 }
}

/// Packets go to and fro until neither side has one.
fn exchange(a: &mut Channels, b: &mut Channels) {
    for from_a in [true, false].into_iter().cycle().take(40) {
        let (from, to) = if from_a { (&mut *a, &mut *b) } else { (&mut *b, &mut *a) };
        while let Some(sent) = from.poll_transmit(0).unwrap() {
            if let Verdict::Answer(answer) = to.handle_packet(0, &sent.packet, draw(9)).unwrap() {
                from.handle_packet(0, &answer, draw(11)).unwrap();
            }
        }
    }
}

/// The DTLS client, which is the listener, and the server, which calls.
fn opened() -> (Channels, Channels) {
    let client = Endpoint::listener(&Config::for_data_channels(5_001, 5_000), [7; 32]).unwrap();
    let server = Endpoint::caller(&Config::for_data_channels(5_000, 5_001)).unwrap();
    let (mut client, mut server) = (Channels::over(client, true).unwrap(), Channels::over(server, false).unwrap());
    server.connect(0, draw(7)).unwrap();
    exchange(&mut server, &mut client);
    (client, server)
}

fn events(channels: &mut Channels) -> Vec<Event> {
    std::iter::from_fn(|| channels.next_event().unwrap()).collect()
}

#[test]
fn a_channel_is_opened_used_and_closed_twice() {
    let (mut client, mut server) = opened();
    assert_eq!(client.status().state, State::Established);
    let parameters = Parameters {
        protocol: b"p".to_vec(),
        ordered: false,
        reliability: Reliability::MaxRetransmits(3),
        ..Parameters::new("chat")
    };
    for _ in 0..2 {
        assert_eq!(client.open(&parameters, None), Ok(0));
        exchange(&mut client, &mut server);
        assert_eq!(events(&mut server), [Event::Incoming { stream: 0, parameters: parameters.clone() }]);
        exchange(&mut client, &mut server);
        assert_eq!(events(&mut client), [Event::Opened { stream: 0 }]);
        let long = vec![5; 65_536];
        for content in [Content::Text("hi"), Content::Binary(&[]), Content::Text(""), Content::Binary(&long)] {
            client.send(0, 0, content).unwrap();
            exchange(&mut client, &mut server);
            let (text, bytes) = match content {
                Content::Text(text) => (true, text.as_bytes()),
                Content::Binary(bytes) => (false, bytes),
            };
            assert_eq!(events(&mut server), [Event::Message { stream: 0, text, bytes: bytes.to_vec() }]);
        }
        server.trim();
        server.send(0, 0, Content::Text("ho")).unwrap();
        client.close(0).unwrap();
        assert_eq!(client.close(0), Err(Error::NoChannel));
        assert_eq!(client.send(0, 0, Content::Text("late")), Err(Error::NoChannel));
        exchange(&mut client, &mut server);
        assert_eq!(events(&mut server), [Event::Closed { stream: 0 }]);
        exchange(&mut client, &mut server);
        let told = Event::Message { stream: 0, text: true, bytes: b"ho".to_vec() };
        assert_eq!(events(&mut client), [told, Event::Closed { stream: 0 }]);
    }
}

#[test]
fn refusals_say_why() {
    let (mut client, mut server) = opened();
    let chat = Parameters::new("chat");
    assert_eq!((client.open(&chat, None), client.open(&chat, None), server.open(&chat, None)), (Ok(0), Ok(2), Ok(1)));
    assert_eq!(client.open(&chat, Some(1)), Err(Error::WrongHalf));
    assert_eq!(client.open(&chat, Some(2)), Err(Error::Used));
    assert_eq!(client.open(&chat, Some(1_024)), Err(Error::NoStream));
    assert_eq!(client.open(&Parameters { label: vec![5; 65_525], ..chat.clone() }, None), Err(Error::TooLong));
    assert_eq!(client.open_negotiated(5, true, Reliability::MaxPacketLifetime(65_536)), Err(Error::OutOfRange));
    assert_eq!(client.open_negotiated(5, false, Reliability::MaxPacketLifetime(100)), Ok(()));
    assert_eq!(client.open_negotiated(5, false, Reliability::Reliable), Err(Error::Used));
    let said = [Error::NoChannel, Error::NoStream, Error::WrongHalf, Error::Used, Error::OutOfRange].map(|error| error.to_string());
    assert!(said.iter().all(|text| text.len() > 10 && !text.contains("no result")));
}

#[test]
fn what_is_buffered_is_counted_and_told() {
    let (mut client, mut server) = opened();
    client.open(&Parameters::new("bulk"), None).unwrap();
    exchange(&mut client, &mut server);
    assert_eq!(client.max_message_size(), 1 << 18);
    assert_eq!(client.set_buffered_amount_low_threshold(0, 1_000), Ok(()));
    assert_eq!(client.set_buffered_amount_low_threshold(77, 0), Err(Error::NoChannel));
    let tickets: Vec<u64> = (0..4).map(|_| client.send(0, 0, Content::Binary(&[5; 1_000])).unwrap()).collect();
    assert_eq!(client.buffered_amount(0), 4_000);
    assert_eq!(client.abandon(tickets[3]), Fate::Withdrawn);
    assert_eq!(client.buffered_amount(0), 3_000);
    assert_eq!(events(&mut client), []);
    exchange(&mut client, &mut server);
    assert_eq!((client.buffered_amount(0), client.path().in_flight), (0, 0));
    assert_eq!(events(&mut client), [Event::BufferedAmountLow { stream: 0 }]);
    assert!(client.counts().packets_out > 0);
}

#[test]
fn channels_close_with_the_association() {
    let (mut client, mut server) = opened();
    let abort = {
        client.open(&Parameters::new("chat"), None).unwrap();
        client.abort(b"enough").unwrap()
    };
    server.handle_packet(0, &abort, draw(9)).unwrap();
    assert_eq!((client.status().ended, server.status().ended), (Some(Ended::AbortedHere), Some(Ended::Aborted)));
    assert_eq!(events(&mut client), [Event::Closed { stream: 0 }]);
    assert_eq!(events(&mut server), []);
}

#[test]
fn odd_messages_are_refused() {
    let (own, peer) = (draw(7), draw(9));
    let mut config = Config::new(5_000, 5_001);
    config.stream_reset = true;
    let mut channels = Channels::over(Endpoint::opened(&config, own, peer).unwrap(), true).unwrap();
    (config.own_port, config.peer_port) = (5_001, 5_000);
    let mut endpoint = Endpoint::opened(&config, peer, own).unwrap();
    endpoint.send(1, true, 50, &[2, 0], None).unwrap();
    channels.handle_packet(0, &endpoint.poll_transmit(0).unwrap().unwrap().packet, draw(9)).unwrap();
    assert_eq!(events(&mut channels), [Event::Refused { stream: 1, why: ChannelReason::AckWithMore }]);
}

#[test]
fn channels_may_go_to_another_thread() {
    let (client, server) = opened();
    std::thread::spawn(move || drop(client)).join().unwrap();
    drop(server);
}
