//! A socket of many associations over real endpoints: calls and their refusals, and an association that a peer begins.

use crate::rattle_std::alloc::Global;
use crate::sctp_cookie::Key;
use crate::sctp_endpoint::{Endpoint, State, Verdict};
use crate::sctp_socket::{CallFault, Heard, Host, Origin, Peer, Socket, SocketEnd, Source, Standing};
use crate::sctp_terms::{Config, ConnectFault, Draw};
use crate::sctp_values::NoMemory;

/// An endpoint, and the random values of its call. These tests send it nothing that shows its peer's tag.
struct Real {
    endpoint: Endpoint,
    call: Option<Draw>,
}

impl SocketEnd for Real {
    fn listener(alloc: Global, config: Config, key: Key) -> Real {
        Real { endpoint: Endpoint::listener(alloc, config, key), call: None }
    }

    fn caller(alloc: Global, config: Config) -> Real {
        Real { endpoint: Endpoint::caller(alloc, config), call: None }
    }

    fn standing(&self) -> Standing {
        match (self.call, self.endpoint.own_tag()) {
            (Some(own), _) if self.endpoint.state() == State::CookieWait => Standing::Called { own },
            (_, Some(own)) if self.endpoint.state() == State::CookieEchoed => Standing::Echoed { own, peer: 0 },
            (_, Some(own)) => Standing::Joined { own, peer: 0 },
            (_, None) => Standing::Apart,
        }
    }

    fn handle_packet(&mut self, now: u64, bytes: &[u8], draw: Draw) -> Result<Verdict, NoMemory> {
        self.endpoint.handle_packet(now, bytes, draw)
    }

    fn connect(&mut self, now: u64, draw: Draw) -> Result<(), ConnectFault> {
        self.call = Some(draw);
        self.endpoint.connect(now, draw)
    }
}

fn config() -> Config {
    Config::new(5_000, 5_000, 1_200, 1_000, 65_536, 4, 4).unwrap()
}

fn peer(host: u8, port: u16) -> Peer {
    Peer::new(Host::new(&[10, 0, 0, host]).unwrap(), 9_899, port)
}

fn draw(tag: u32) -> Draw {
    Draw::new(tag, 100 * tag).unwrap()
}

fn socket(most: u64) -> Socket<Real> {
    Socket::new(Global, config(), [7; 32], most)
}

#[test]
fn calls_have_numbers_or_are_refused_by_name() {
    let mut socket = socket(2);
    assert_eq!(socket.connect(0, peer(1, 0), draw(1)), Err(CallFault::Port));
    assert_eq!(socket.connect(0, peer(1, 5_000), draw(1)), Ok(1));
    assert_eq!(socket.connect(0, peer(1, 5_000), draw(2)), Err(CallFault::Exists));
    assert_eq!(socket.connect(0, peer(2, 5_000), draw(1)), Err(CallFault::Tag));
    assert_eq!(socket.connect(0, peer(2, 5_000), draw(2)), Ok(2));
    assert_eq!(socket.connect(0, peer(3, 5_000), draw(3)), Err(CallFault::Full));
    assert!(socket.end(1).is_some_and(|end| end.endpoint.state() == State::CookieWait));
    assert!(socket.peer(2) == Some(peer(2, 5_000)));
    assert!(socket.end(3).is_none());
}

#[test]
fn a_peer_begins_an_association_by_its_cookie() {
    let (mut socket, mut caller) = (socket(1), Endpoint::caller(Global, config()));
    let origin = Origin { host: Host::new(&[10, 0, 0, 1]).unwrap(), udp_port: 9_899, source: Source::Claimed };
    caller.connect(0, draw(1)).unwrap();
    let init = caller.poll_transmit(0).unwrap().unwrap();
    let Heard::Nobody(Verdict::Answer(init_ack)) = socket.handle_packet(0, origin, &init.packet, draw(2)).unwrap() else {
        panic!("the INIT isn't answered");
    };
    assert!(socket.end(1).is_none());
    assert!(caller.handle_packet(0, &init_ack, draw(3)).unwrap() == Verdict::Taken);
    let cookie_echo = caller.poll_transmit(0).unwrap().unwrap();
    assert!(matches!(socket.handle_packet(1, origin, &cookie_echo.packet, draw(4)).unwrap(), Heard::Of(1, Verdict::Taken)));
    assert!(socket.end(1).is_some_and(|end| end.endpoint.state() == State::Established));
    assert!(socket.peer(1) == Some(peer(1, 5_000)));
    assert_eq!(socket.connect(1, peer(1, 5_000), draw(6)), Err(CallFault::Exists));
}
