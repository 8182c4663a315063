//! An association over UDP (RFC 6951: a packet is the payload of a datagram), with the standard library's socket:
//!
//! ```text
//! cargo run --release --example udp -- listen 9899                    sends each message back, to one peer after the other
//! cargo run --release --example udp -- connect 127.0.0.1:9899         sends the lines of its input, and prints what comes back
//! ```
//!
//! One turn of the loop: send what is due, wait for a packet or for the next deadline, handle it, let the time act, take what was received.

mod random;

use sidorghu::{Config, ConfigError, End, Endpoint, Key, SendError, SendOptions, Verdict};
use std::collections::VecDeque;
use std::error::Error;
use std::io::{self, BufRead};
use std::net::{SocketAddr, UdpSocket};
use std::sync::mpsc::{Receiver, TryRecvError, channel};
use std::thread;
use std::time::{Duration, Instant};

/// How long a turn waits at most.
const TURN: Duration = Duration::from_millis(20);
/// How long the one that closed stays: its last packet may be lost, and the peer asks for it again after a second.
const LINGER: Duration = Duration::from_millis(1_500);

/// An endpoint over a socket.
struct Link {
    endpoint: Endpoint,
    socket: UdpSocket,
    /// Where packets go: at first to whom we call, then to the sender of the last packet that was taken, whose tag was right.
    peer: Option<SocketAddr>,
    start: Instant,
}

impl Link {
    fn new(endpoint: Endpoint, socket: UdpSocket, peer: Option<SocketAddr>) -> Link {
        Link { endpoint, socket, peer, start: Instant::now() }
    }

    /// Sends what is due. A datagram that the system doesn't take counts as lost: it is retransmitted.
    fn transmit(&mut self) -> Result<(), Box<dyn Error>> {
        while let Some(sent) = self.endpoint.poll_transmit(self.start.elapsed())? {
            if let Some(peer) = self.peer {
                let _ = self.socket.send_to(&sent.packet, peer);
            }
            self.endpoint.recycle(sent);
        }
        Ok(())
    }

    /// Waits for a packet, until the next deadline or the end of the turn, and handles it.
    fn receive(&mut self) -> Result<(), Box<dyn Error>> {
        let mut datagram = [0; 2_048];
        let deadline = self.endpoint.next_moment().map_or(TURN, |at| at.saturating_sub(self.start.elapsed()));
        self.socket.set_read_timeout(Some(deadline.clamp(Duration::from_millis(1), TURN)))?;
        let Ok((length, from)) = self.socket.recv_from(&mut datagram) else { return Ok(()) };
        match self.endpoint.handle_packet(self.start.elapsed(), &datagram[..length], random::draw()?)? {
            Verdict::Answer(answer) => drop(self.socket.send_to(&answer, from)),
            Verdict::Taken => self.peer = Some(from),
            Verdict::Dropped(_) => {}
        }
        Ok(())
    }

    /// One turn of the loop.
    fn turn(&mut self) -> Result<(), Box<dyn Error>> {
        self.transmit()?;
        self.receive()?;
        self.endpoint.on_moment(self.start.elapsed());
        Ok(())
    }

    /// Sends the first messages of a queue. What is refused because the endpoint's queue is full stays for a later turn.
    fn send(&mut self, waiting: &mut VecDeque<Vec<u8>>) -> Result<(), SendError> {
        while let Some(message) = waiting.front() {
            match self.endpoint.send(0, message, SendOptions::new()) {
                Err(SendError::QueueFull) => return Ok(()),
                answer => drop(answer?),
            }
            waiting.pop_front();
        }
        Ok(())
    }
}

/// One stream each way, and a receive buffer that is no larger than what the system keeps for a socket.
fn config(own: u16, peer: u16) -> Result<Config, ConfigError> {
    Config::builder(own, peer).streams(1, 1).receive_buffer(131_072).build()
}

/// Sends each message back, to one peer after the other. A new endpoint answers what the last one is still asked.
fn listen(port: u16) -> Result<(), Box<dyn Error>> {
    let socket = UdpSocket::bind(("127.0.0.1", port))?;
    let key = Key::new(random::bytes()?);
    loop {
        let endpoint = Endpoint::listener(config(5_001, 5_000)?, key.clone());
        let (mut link, mut waiting) = (Link::new(endpoint, socket.try_clone()?, None), VecDeque::new());
        while link.endpoint.ended().is_none() {
            link.turn()?;
            while waiting.len() < 16 {
                let Some(message) = link.endpoint.take_next(0) else { break };
                waiting.push_back(message.to_vec()?);
                link.endpoint.give_back(message);
            }
            match link.send(&mut waiting) {
                Err(SendError::NotOpen) => waiting.clear(), // the peer closes: it takes nothing more
                answer => answer?,
            }
        }
        eprintln!("{:?}: {:?}", link.peer, link.endpoint.ended());
    }
}

/// The lines of the input, read by a thread of their own. Its end ends the channel.
fn lines() -> Receiver<Vec<u8>> {
    let (line, lines) = channel();
    thread::spawn(move || io::stdin().lock().split(b'\n').map_while(Result::ok).try_for_each(|it| line.send(it)));
    lines
}

/// Sends the lines of the input, prints what comes back, and closes once all did.
fn connect(peer: SocketAddr) -> Result<(), Box<dyn Error>> {
    let endpoint = Endpoint::caller(config(5_000, 5_001)?);
    let mut link = Link::new(endpoint, UdpSocket::bind(("127.0.0.1", 0))?, Some(peer));
    let (input, mut waiting, mut missing, mut open) = (lines(), VecDeque::new(), 0_u64, true);
    link.endpoint.connect(Duration::ZERO, random::draw()?)?;
    while link.endpoint.ended().is_none() {
        open = open && read(&input, &mut waiting);
        let before = link.endpoint.tickets();
        match link.send(&mut waiting) {
            Err(SendError::NotOpen) => {} // not yet
            answer => answer?,
        }
        missing += link.endpoint.tickets() - before;
        link.turn()?;
        while let Some(message) = link.endpoint.take_next(0) {
            println!("{}", String::from_utf8_lossy(&message.to_vec()?));
            missing -= 1;
        }
        if !open && waiting.is_empty() && missing == 0 {
            let _ = link.endpoint.shutdown(); // refused until the association is open
        }
    }
    finish(link)
}

/// Moves lines that were read to a queue, some at a time. False once there are no more. An empty line is left out: SCTP has no empty message.
fn read(input: &Receiver<Vec<u8>>, waiting: &mut VecDeque<Vec<u8>>) -> bool {
    while waiting.len() < 16 {
        match input.try_recv() {
            Ok(line) if line.is_empty() => {}
            Ok(line) => waiting.push_back(line),
            Err(fault) => return fault != TryRecvError::Disconnected,
        }
    }
    true
}

/// Answers the peer for a while after the end, and says how it was.
fn finish(mut link: Link) -> Result<(), Box<dyn Error>> {
    let over = link.start.elapsed();
    while link.start.elapsed() < over + LINGER {
        link.turn()?;
    }
    match link.endpoint.ended() {
        Some(End::Completed) => Ok(()),
        ended => Err(format!("the association wasn't closed: {ended:?}").into()),
    }
}

fn main() -> Result<(), Box<dyn Error>> {
    let words: Vec<String> = std::env::args().skip(1).collect();
    match words.iter().map(String::as_str).collect::<Vec<_>>()[..] {
        ["listen", port] => listen(port.parse()?),
        ["connect", peer] => connect(peer.parse()?),
        _ => Err("udp listen PORT | udp connect ADDRESS:PORT".into()),
    }
}
