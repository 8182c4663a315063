//! Two ends in one process: packets of the one are passed to the other.
#![allow(dead_code, reason = "each test program uses a part")]

#[cfg(feature = "channels")]
use sidorghu::channels::{Channels, DtlsRole, Event};
use sidorghu::{Config, Draw, Endpoint, Key, NoMemory, Sent, Verdict};
use std::time::Duration;

/// What sends and receives packets.
pub trait End {
    fn next_packet(&mut self, now: Duration) -> Result<Option<Sent>, NoMemory>;
    fn receive(&mut self, now: Duration, packet: &[u8], draw: Draw) -> Result<Verdict, NoMemory>;
    fn at(&mut self, now: Duration);
}

macro_rules! is_end {
    ($name:ty) => {
        impl End for $name {
            fn next_packet(&mut self, now: Duration) -> Result<Option<Sent>, NoMemory> {
                self.poll_transmit(now)
            }
            fn receive(&mut self, now: Duration, packet: &[u8], draw: Draw) -> Result<Verdict, NoMemory> {
                self.handle_packet(now, packet, draw)
            }
            fn at(&mut self, now: Duration) {
                self.on_moment(now);
            }
        }
    };
}
is_end!(Endpoint);
#[cfg(feature = "channels")]
is_end!(Channels);

/// A number of milliseconds.
pub fn ms(milliseconds: u64) -> Duration {
    Duration::from_millis(milliseconds)
}

/// Values that stand for random ones.
pub fn draw(number: u32) -> Draw {
    Draw::new(number, 100 * number).expect("not 0")
}

/// The configuration of each of two endpoints: the first at port 5,000.
pub fn config(first: bool) -> Config {
    let (own, peer) = if first { (5_000, 5_001) } else { (5_001, 5_000) };
    Config::builder(own, peer).streams(4, 4).receive_buffer(65_536).build().expect("within the limits")
}

/// Passes the next packet of one end to the other, and the answer back. False if there was none.
pub fn carry(from: &mut impl End, to: &mut impl End, now: Duration) -> bool {
    let Some(sent) = from.next_packet(now).expect("memory") else { return false };
    if let Verdict::Answer(answer) = to.receive(now, &sent.packet, draw(9)).expect("memory") {
        let _ = from.receive(now, &answer, draw(9)).expect("memory");
    }
    true
}

/// Passes packets until neither end has one.
pub fn settle(a: &mut impl End, b: &mut impl End, now: Duration) {
    while carry(a, b, now) | carry(b, a, now) {}
}

/// The packets of an end are lost.
pub fn lose(from: &mut impl End, now: Duration) -> Vec<Sent> {
    std::iter::from_fn(|| from.next_packet(now).expect("memory")).collect()
}

/// Two endpoints with an association between them, opened by the first.
pub fn pair_of(first: Config, second: Config) -> (Endpoint, Endpoint) {
    let (mut a, mut b) = (Endpoint::caller(first), Endpoint::listener(second, Key::new([7; 32])));
    a.connect(ms(0), draw(7)).expect("a new caller");
    settle(&mut a, &mut b, ms(0));
    (a, b)
}

/// The same with the usual configuration.
pub fn pair() -> (Endpoint, Endpoint) {
    pair_of(config(true), config(false))
}

/// Two ends of data channels, established: the first is the DTLS client.
#[cfg(feature = "channels")]
pub fn channels() -> (Channels, Channels) {
    let config = Config::for_data_channels(5_000, 5_000).expect("ports");
    let mut a = Channels::caller(config, DtlsRole::Client).expect("memory");
    let mut b = Channels::listener(config, Key::new([7; 32]), DtlsRole::Server).expect("memory");
    a.connect(ms(0), draw(7)).expect("a new caller");
    settle(&mut a, &mut b, ms(0));
    (a, b)
}

/// What is reported until there is nothing more.
#[cfg(feature = "channels")]
pub fn events(channels: &mut Channels) -> Vec<Event> {
    std::iter::from_fn(|| channels.next_event().expect("memory")).collect()
}
