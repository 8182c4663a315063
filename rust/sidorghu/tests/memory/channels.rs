//! The calls of channels.

use super::common::{channels, draw, events, ms, settle};
use super::each_refused;
use sidorghu::channels::{ChannelOptions, ChannelSendError, DtlsRole, Event, OpenError, ThresholdError};
use sidorghu::{Channels, Config, Key, NoMemory, SendError, State};

#[test]
fn channels_are_made() {
    let config = Config::for_data_channels(1, 1).unwrap();
    let many = each_refused(|| (), |()| Channels::caller(config, DtlsRole::Client), NoMemory, |(), channels| channels.state() == State::Closed);
    assert!(many > 0);
    let key = || Key::new([7; 32]);
    each_refused(|| (), |()| Channels::listener(config, key(), DtlsRole::Client), NoMemory, |(), channels| channels.state() == State::Listen);
}

#[test]
fn channels_are_opened_and_sent_on() {
    let open = |(a, _): &mut (Channels, Channels)| a.open(&ChannelOptions::new("label"));
    let many = each_refused(channels, open, OpenError::Refused(SendError::NoMemory), |(mut a, mut b), stream| {
        settle(&mut a, &mut b, ms(1));
        stream == 0 && matches!(events(&mut b)[..], [Event::Incoming { stream: 0, .. }])
    });
    assert!(many > 0);
    let made = || {
        let (mut a, mut b) = channels();
        a.open_negotiated(0, &ChannelOptions::new("")).unwrap();
        b.open_negotiated(0, &ChannelOptions::new("")).unwrap();
        (a, b)
    };
    let send = |(a, _): &mut (Channels, Channels)| a.send(ms(1), 0, "text");
    let many = each_refused(made, send, ChannelSendError::Refused(SendError::NoMemory), |(mut a, mut b), _| {
        settle(&mut a, &mut b, ms(1));
        events(&mut b).len() == 1
    });
    assert!(many > 0);
    let set = |(a, _): &mut (Channels, Channels)| a.set_buffered_amount_low_threshold(0, 5);
    assert!(each_refused(made, set, ThresholdError::NoMemory, |_, ()| true) > 0);
}

#[test]
fn events_are_taken_and_acknowledged() {
    let asked = || {
        let (mut a, mut b) = channels();
        a.open(&ChannelOptions::new("label")).unwrap();
        settle(&mut a, &mut b, ms(1));
        (a, b)
    };
    let many = each_refused(asked, |(_, b)| b.next_event(), NoMemory, |_, event| matches!(event, Some(Event::Incoming { stream: 0, .. })));
    assert!(many > 0);
    let due = || {
        let (a, mut b) = asked();
        events(&mut b);
        (a, b)
    };
    let many = each_refused(
        due,
        |(_, b)| b.poll_transmit(ms(2)),
        NoMemory,
        |(mut a, _), sent| {
            let _ = a.handle_packet(ms(2), &sent.unwrap().packet, draw(9)).unwrap();
            events(&mut a) == [Event::Opened { stream: 0 }]
        },
    );
    assert!(many > 0);
}
