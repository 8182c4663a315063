//! A chat: one UDP socket with an association for each member, so a program with many peers.
//!
//! ```text
//! cargo run --release --example chat -- server 9899
//! cargo run --release --example chat -- ann 127.0.0.1:9899         says each line of its input, prints what is said, and leaves at its end
//! ```
//!
//! A packet belongs to the endpoint whose own verification tag it has; an ABORT or a SHUTDOWN COMPLETE with the T bit has the tag of the packets to
//! its sender, and belongs to the endpoints that send those (RFC 9260, 8.5.1). Any other one is for a listener, which keeps nothing of a peer until
//! its cookie returns: so a new one is made for each such packet, with a key for the sender's address alone.

mod random;

use sidorghu::{Config, ConfigError, End, Endpoint, Key, NoMemory, SendError, SendOptions, State, Verdict, peek_packet};
use std::collections::HashMap;
use std::error::Error;
use std::io::{self, BufRead};
use std::net::{SocketAddr, UdpSocket};
use std::sync::mpsc::{Receiver, TryRecvError, channel};
use std::thread;
use std::time::{Duration, Instant};

/// How long a turn waits at most.
const TURN: Duration = Duration::from_millis(50);
/// How long a cookie is valid, its last millisecond included. An endpoint that is over is kept as long, so that its late COOKIE ECHO opens nothing.
const COOKIE_LIFE: Duration = Duration::from_millis(60_001);
/// A member that is silent for this time is sent an empty line: if it has gone, that isn't acknowledged, and the association ends.
const SILENCE: Duration = Duration::from_secs(30);
/// How long a member that has left still answers: if its SHUTDOWN COMPLETE is lost, the server repeats its SHUTDOWN ACK after 1 and 3 seconds.
const LINGER: Duration = Duration::from_secs(5);

/// One stream each way, and a receive buffer that is no larger than what the system keeps for a socket.
fn config(own: u16, peer: u16) -> Result<Config, ConfigError> {
    Config::builder(own, peer).streams(1, 1).receive_buffer(131_072).build()
}

/// Sends what an endpoint has to send, and returns the tag of the last packet: the peer's.
fn transmit(endpoint: &mut Endpoint, socket: &UdpSocket, to: SocketAddr, now: Duration) -> Result<Option<u32>, NoMemory> {
    let mut tag = None;
    endpoint.on_moment(now);
    while let Some(sent) = endpoint.poll_transmit(now)? {
        let _ = socket.send_to(&sent.packet, to); // what the system doesn't take counts as lost
        tag = peek_packet(&sent.packet).map(|header| header.tag);
        endpoint.recycle(sent);
    }
    Ok(tag)
}

/// Waits for a packet until a deadline, or the end of the turn.
fn receive<'a>(socket: &UdpSocket, buffer: &'a mut [u8], deadline: Option<Duration>, now: Duration) -> io::Result<Option<(&'a [u8], SocketAddr)>> {
    let wait = deadline.map_or(TURN, |at| at.saturating_sub(now));
    socket.set_read_timeout(Some(wait.clamp(Duration::from_millis(1), TURN)))?;
    Ok(socket.recv_from(buffer).ok().map(|(length, from)| (&buffer[..length], from)))
}

/// The next line that was received.
fn take_line(endpoint: &mut Endpoint) -> Result<Option<String>, NoMemory> {
    let Some(message) = endpoint.take_next(0) else { return Ok(None) };
    let line = String::from_utf8_lossy(&message.to_vec()?).into_owned();
    endpoint.give_back(message);
    Ok(Some(line))
}

/// Someone in the chat.
struct Member {
    endpoint: Endpoint,
    /// Its IP address, and the port that the last packet that was taken was received from: a NAT may change the port (RFC 6951, 5.4).
    at: SocketAddr,
    /// That of the packets to it, and of those with the T bit from it.
    peer_tag: Option<u32>,
    name: String,
    /// When something was last received from it, or it was asked whether it is there; from the end on, the time of the end.
    last: Duration,
}

impl Member {
    fn handle(&mut self, socket: &UdpSocket, packet: &[u8], from: SocketAddr, now: Duration) -> Result<(), Box<dyn Error>> {
        match self.endpoint.handle_packet(now, packet, random::draw()?)? {
            Verdict::Answer(answer) => drop(socket.send_to(&answer, from)),
            // a COOKIE ECHO, 10, may be a late copy, and who sends it from where says nothing
            Verdict::Taken if packet.get(12) != Some(&10) => (self.at, self.last) = (from, now),
            Verdict::Taken | Verdict::Dropped(_) => {}
        }
        Ok(())
    }
}

/// The chat: its members by their endpoints' own tags.
struct Server {
    socket: UdpSocket,
    secret: [u8; 32],
    members: HashMap<u32, Member>,
}

impl Server {
    /// Handles a packet: a member's, or for a listener that may become one.
    fn handle(&mut self, packet: &[u8], from: SocketAddr, now: Duration) -> Result<(), Box<dyn Error>> {
        let Some(header) = peek_packet(packet) else { return Ok(()) };
        // an ABORT, 6, or a SHUTDOWN COMPLETE, 14, with the T bit: the endpoint that sent it is over
        if matches!(packet[12..], [6 | 14, flags, ..] if flags & 1 == 1) {
            let mut theirs = self.members.values_mut().filter(|member| member.at.ip() == from.ip() && member.peer_tag == Some(header.tag));
            return theirs.try_for_each(|member| member.handle(&self.socket, packet, from, now));
        }
        if let Some(member) = self.members.get_mut(&header.tag) {
            return if member.at.ip() == from.ip() { member.handle(&self.socket, packet, from, now) } else { Ok(()) };
        }
        let endpoint = Endpoint::listener(config(5_001, 5_000)?, Key::derived(&self.secret, from.to_string().as_bytes()));
        let mut member = Member { endpoint, at: from, peer_tag: None, name: from.to_string(), last: now };
        member.handle(&self.socket, packet, from, now)?;
        if let Some(tag) = member.endpoint.own_tag() {
            self.members.insert(tag, member);
        }
        Ok(())
    }

    /// The lines that were received, each with its speaker. A member's first line is its name.
    fn listen(&mut self) -> Result<Vec<String>, NoMemory> {
        let mut said = Vec::new();
        for member in self.members.values_mut() {
            while let Some(line) = take_line(&mut member.endpoint)? {
                match line.strip_prefix("/name ") {
                    Some(name) => member.name = name.to_owned(),
                    None => said.push(format!("{}: {line}", member.name)),
                }
            }
        }
        Ok(said)
    }

    /// Says a line to all. Whoever has not taken 1,024 lines before is aborted: one that is left out would be lost without its knowing.
    fn say(&mut self, line: &str) {
        for member in self.members.values_mut().filter(|member| member.endpoint.state() == State::Established) {
            if let Err(why @ (SendError::QueueFull | SendError::NoMemory)) = member.endpoint.send(0, line.as_bytes(), SendOptions::new()) {
                eprintln!("{} is aborted: {why}", member.name);
                let _ = member.endpoint.abort(b"lines wait").map(|packet| self.socket.send_to(&packet, member.at));
            }
        }
    }

    /// Asks whoever is silent, notes who has gone, and forgets who went a cookie's life ago.
    fn look(&mut self, now: Duration) -> Vec<String> {
        let mut gone = Vec::new();
        self.members.retain(|_, member| match member.endpoint.ended() {
            None if now >= member.last + SILENCE => {
                let _ = member.endpoint.send(0, b" ", SendOptions::new());
                member.last = now;
                true
            }
            None => true,
            Some(end) if !member.name.is_empty() => {
                gone.push(format!("{} has left: {end:?}", std::mem::take(&mut member.name)));
                member.last = now;
                true
            }
            Some(_) => now < member.last + COOKIE_LIFE,
        });
        gone
    }

    fn run(&mut self) -> Result<(), Box<dyn Error>> {
        let (start, mut buffer) = (Instant::now(), [0; 2_048]);
        loop {
            let now = start.elapsed();
            for member in self.members.values_mut() {
                member.peer_tag = transmit(&mut member.endpoint, &self.socket, member.at, now)?.or(member.peer_tag);
            }
            let deadline = self.members.values().filter_map(|member| member.endpoint.next_moment()).min();
            if let Some((packet, from)) = receive(&self.socket, &mut buffer, deadline, now)? {
                self.handle(packet, from, start.elapsed())?;
            }
            for line in [self.listen()?, self.look(start.elapsed())].concat() {
                println!("{line}");
                self.say(&line);
            }
        }
    }
}

/// The lines of the input, read by a thread of their own. Its end ends the channel.
fn lines() -> Receiver<String> {
    let (line, lines) = channel();
    thread::spawn(move || io::stdin().lock().lines().map_while(Result::ok).try_for_each(|it| line.send(it)));
    lines
}

/// Sends the line that waits, and those that were read after it. False once there are no more.
fn speak(endpoint: &mut Endpoint, input: &Receiver<String>, waiting: &mut Option<String>) -> Result<bool, SendError> {
    loop {
        let line = match waiting.take().map_or_else(|| input.try_recv(), Ok) {
            Ok(line) => line,
            Err(fault) => return Ok(fault != TryRecvError::Disconnected),
        };
        match endpoint.send(0, line.as_bytes(), SendOptions::new()) {
            Err(SendError::NotOpen | SendError::QueueFull | SendError::NoMemory) => {
                *waiting = Some(line); // later
                return Ok(true);
            }
            Err(SendError::Empty) | Ok(_) => {}
            Err(why) => return Err(why),
        }
    }
}

/// Waits for a packet to a member, and answers it.
fn hear(endpoint: &mut Endpoint, socket: &UdpSocket, start: Instant) -> Result<(), Box<dyn Error>> {
    let mut buffer = [0; 2_048];
    if let Some((packet, from)) = receive(socket, &mut buffer, endpoint.next_moment(), start.elapsed())? {
        if let Verdict::Answer(answer) = endpoint.handle_packet(start.elapsed(), packet, random::draw()?)? {
            let _ = socket.send_to(&answer, from);
        }
    }
    Ok(())
}

/// A member's side.
fn join(name: &str, server: SocketAddr) -> Result<(), Box<dyn Error>> {
    let (socket, start) = (UdpSocket::bind(("0.0.0.0", 0))?, Instant::now());
    let mut endpoint = Endpoint::caller(config(5_000, 5_001)?);
    let (input, mut waiting) = (lines(), Some(format!("/name {name}")));
    endpoint.connect(Duration::ZERO, random::draw()?)?;
    while endpoint.ended().is_none() {
        if !speak(&mut endpoint, &input, &mut waiting)? {
            endpoint.shutdown()?;
        }
        transmit(&mut endpoint, &socket, server, start.elapsed())?;
        hear(&mut endpoint, &socket, start)?;
        while let Some(line) = take_line(&mut endpoint)? {
            println!("{line}");
        }
    }
    println!("{:?}", endpoint.ended());
    let over = start.elapsed();
    while endpoint.ended() == Some(End::Completed) && start.elapsed() < over + LINGER {
        hear(&mut endpoint, &socket, start)?;
    }
    Ok(())
}

fn main() -> Result<(), Box<dyn Error>> {
    let words: Vec<String> = std::env::args().skip(1).collect();
    match words.iter().map(String::as_str).collect::<Vec<_>>()[..] {
        ["server", port] => {
            let socket = UdpSocket::bind(("0.0.0.0", port.parse()?))?;
            Server { socket, secret: random::bytes()?, members: HashMap::new() }.run()
        }
        [name, server] => join(name, server.parse()?),
        _ => Err("chat server PORT | chat NAME ADDRESS:PORT".into()),
    }
}
