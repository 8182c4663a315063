//! Lines over an association over UDP (RFC 6951: a packet is the payload of a datagram), as examples/c/udp.c does it, with which it talks:
//!
//!     udp listen 9899                            prints the lines that it receives
//!     udp call 9900 127.0.0.1:9899 < lines       sends them, and closes
//!
//! The standard library can't set a socket's receive buffer, so the endpoint's own is small enough for the system's default: nothing but that slows
//! a sender down. After closing, the socket stays open for some seconds, so that the peer learns of it even if the last packet is lost.

use sctp_endpoint::{random_key, Config, Draw, Ended, Endpoint, Error, State, VerdictInto, LONGEST_PACKET, MOST_TICKETS};
use std::io::{self, BufRead, Write};
use std::net::{SocketAddr, UdpSocket};
use std::time::{Duration, Instant};

/// Bytes of the endpoint's receive buffer: one stream, and a line is shorter.
const BUFFER: u32 = 65_536;
/// Milliseconds for which a lost SHUTDOWN COMPLETE is repeated: the peer asks for it again after 1, 3 and 7 seconds.
const LINGER: u64 = 8_000;
const PACKETS_A_TURN: usize = 16;

struct Program {
    endpoint: Endpoint,
    udp: UdpSocket,
    peer: Option<SocketAddr>,
    lines: Vec<Vec<u8>>,
    begun: Instant,
    /// 0 unless the last answer was SHUTDOWN COMPLETE.
    linger_until: u64,
}

impl Program {
    fn now(&self) -> u64 {
        self.begun.elapsed().as_millis() as u64
    }

    /// Sends some of the packets that may be sent. True if there may be more.
    fn transmit(&mut self) -> Result<bool, Error> {
        let (mut packet, mut tickets) = ([0; LONGEST_PACKET], [0; MOST_TICKETS]);
        for _ in 0..PACKETS_A_TURN {
            let Some(sent) = self.endpoint.poll_transmit_into(self.now(), &mut packet, &mut tickets)? else {
                return Ok(false);
            };
            if let Some(peer) = self.peer {
                let _ = self.udp.send_to(&packet[..sent.length], peer);
            }
        }
        Ok(true)
    }

    /// Waits for a datagram, this long at most, and processes it.
    fn receive(&mut self, wait: u64) -> io::Result<()> {
        let (mut packet, mut answer) = ([0; 65_536], [0; LONGEST_PACKET]);
        self.udp.set_read_timeout(Some(Duration::from_millis(wait.clamp(1, 60_000))))?;
        let Ok((length, sender)) = self.udp.recv_from(&mut packet) else {
            return Ok(());
        };
        match self.endpoint.handle_packet_into(self.now(), &packet[..length], Draw::random()?, &mut answer) {
            Ok(VerdictInto::Answer(length)) => {
                let _ = self.udp.send_to(&answer[..length], sender);
                if self.endpoint.status().ended == Some(Ended::Completed) {
                    self.linger_until = self.now() + LINGER;
                }
            }
            Ok(VerdictInto::Taken) => self.peer = Some(sender), // its tag was right: this is the peer's address
            Ok(VerdictInto::Dropped(_)) | Err(_) => {}
        }
        Ok(())
    }

    /// Queues lines, and closes after the last one. If the queue is full, the rest waits for the next turn.
    fn send(&mut self) -> Result<(), Error> {
        while !self.lines.is_empty() && self.endpoint.status().state == State::Established {
            match self.endpoint.send(0, true, 0, &self.lines[0], None) {
                Err(Error::QueueFull) => return Ok(()),
                other => other?,
            };
            self.lines.remove(0);
            if self.lines.is_empty() {
                self.endpoint.shutdown()?;
            }
        }
        Ok(())
    }

    fn take(&mut self) -> io::Result<()> {
        while let Some(message) = self.endpoint.readable(0).and_then(|stream| self.endpoint.take(stream)) {
            io::stdout().write_all(&message.bytes)?;
            io::stdout().write_all(b"\n")?;
        }
        io::stdout().flush()
    }

    fn run(&mut self) -> Result<Ended, Box<dyn std::error::Error>> {
        loop {
            let more = self.transmit()?;
            let (status, now) = (self.endpoint.status(), self.now());
            let until = match status.ended {
                Some(ended) if now >= self.linger_until => return Ok(ended),
                Some(_) => self.linger_until,
                None => status.next_moment.unwrap_or(u64::MAX),
            };
            self.receive(if more { 0 } else { until.saturating_sub(now) })?;
            self.send()?;
            self.endpoint.on_moment(self.now());
            self.take()?;
        }
    }
}

fn main() -> Result<(), Box<dyn std::error::Error>> {
    let words: Vec<String> = std::env::args().skip(1).collect();
    let words: Vec<&str> = words.iter().map(String::as_str).collect();
    let (port, peer) = match words[..] {
        ["listen", port] => (port, None),
        ["call", port, peer] => (port, Some(peer.parse::<SocketAddr>()?)),
        _ => return Err("udp listen PORT | udp call PORT ADDRESS:PORT".into()),
    };
    let mut config = if peer.is_some() { Config::new(5_000, 5_001) } else { Config::new(5_001, 5_000) };
    (config.buffer, config.outbound, config.inbound) = (BUFFER, 1, 1);
    let endpoint = if peer.is_some() { Endpoint::caller(&config)? } else { Endpoint::listener(&config, random_key()?)? };
    let mut program = Program {
        endpoint,
        udp: UdpSocket::bind(("0.0.0.0", port.parse()?))?,
        peer,
        lines: Vec::new(),
        begun: Instant::now(),
        linger_until: 0,
    };
    if peer.is_some() {
        program.lines = io::stdin().lock().split(b'\n').collect::<Result<_, _>>()?;
        program.endpoint.connect(0, Draw::random()?)?;
    }
    let ended = program.run()?;
    eprintln!("ended {ended:?}");
    if ended == Ended::Completed {
        Ok(())
    } else {
        Err("the association did not close gracefully".into())
    }
}
