//! Data channels with a page in a browser: each message is sent back, on the page's channels and on one that the program opens, which it closes at the
//! text `close`. ICE and DTLS are aiortc's, which `examples/webrtc/serve.py` of the repository runs; it passes the SCTP packets on as datagrams of the
//! loopback interface. From the repository's top, with Debian's python3-aiortc:
//!
//! ```text
//! (cd rust && cargo run --release --example webrtc -- 9899) &
//! examples/webrtc/serve.py --program 9899            then open http://127.0.0.1:8080/ in a browser
//! ```
//!
//! `tests/rust-webrtc.sh` does it with a browser without a screen. `docs/CHANNELS.md` says what carries what; with another DTLS, replace the socket.

mod random;

use sidorghu::channels::{ChannelOptions, ChannelSendError, Channels, Content, DtlsRole, Event};
use sidorghu::{Config, Key, SendError, State, Verdict};
use std::collections::VecDeque;
use std::error::Error;
use std::net::{SocketAddr, UdpSocket};
use std::time::{Duration, Instant};

/// How long a turn waits at most: lifetimes of messages end by then.
const TURN: Duration = Duration::from_millis(100);

/// A message that is to be sent back.
struct Echo {
    stream: u16,
    text: bool,
    bytes: Vec<u8>,
}

/// The program's side of one connection.
struct Side {
    channels: Channels,
    socket: UdpSocket,
    /// The sender of the last packet that was taken.
    peer: Option<SocketAddr>,
    start: Instant,
    waiting: VecDeque<Echo>,
    /// The stream of the channel that the program opened.
    own: Option<u16>,
}

impl Side {
    /// A side that listens, as a program does whose browser calls, too. `serve.py` is the DTLS client, unless it is started with `--server`.
    fn new(socket: UdpSocket) -> Result<Side, Box<dyn Error>> {
        let config = Config::for_data_channels(5_000, 5_000)?;
        let channels = Channels::listener(config, Key::new(random::bytes()?), DtlsRole::Client)?;
        Ok(Side { channels, socket, peer: None, start: Instant::now(), waiting: VecDeque::new(), own: None })
    }

    /// Opens the program's own channel, once the association is established: before there is no stream.
    fn open(&mut self) -> Result<(), Box<dyn Error>> {
        if self.own.is_none() && self.channels.state() == State::Established {
            self.own = Some(self.channels.open(&ChannelOptions::new("from the program"))?);
        }
        Ok(())
    }

    /// Prints what is reported, and keeps each message to be sent back.
    fn report(&mut self) -> Result<(), Box<dyn Error>> {
        while self.waiting.len() < 64 {
            let Some(event) = self.channels.next_event()? else { break };
            match event {
                Event::Incoming { stream, parameters } => {
                    println!("channel {stream}, {}: opened by the page", String::from_utf8_lossy(&parameters.label))
                }
                Event::Message { stream, text, payload } => {
                    let bytes = payload.to_vec()?;
                    self.channels.give_back_payload(payload);
                    if self.own == Some(stream) && bytes == b"close" {
                        self.channels.close(stream)?;
                    } else {
                        self.waiting.push_back(Echo { stream, text, bytes });
                    }
                }
                Event::Closed { stream } => println!("channel {stream}: closed"),
                other => println!("{other:?}"),
            }
        }
        Ok(())
    }

    /// Sends messages back. One that finds the queue full stays for a later turn; one whose channel is being closed is dropped.
    fn answer(&mut self) -> Result<(), Box<dyn Error>> {
        while let Some(Echo { stream, text, bytes }) = self.waiting.front() {
            let content = if *text { Content::Text(bytes) } else { Content::Binary(bytes) };
            match self.channels.send(self.start.elapsed(), *stream, content) {
                Err(ChannelSendError::Refused(SendError::QueueFull | SendError::NoMemory)) => return Ok(()),
                Err(why) => println!("channel {stream}: not sent back: {why}"),
                Ok(_) => {}
            }
            self.waiting.pop_front();
        }
        Ok(())
    }

    /// Sends what is due.
    fn transmit(&mut self) -> Result<(), Box<dyn Error>> {
        while let Some(sent) = self.channels.poll_transmit(self.start.elapsed())? {
            if let Some(peer) = self.peer {
                let _ = self.socket.send_to(&sent.packet, peer);
            }
            self.channels.recycle(sent);
        }
        Ok(())
    }

    /// Waits for a packet, until the next deadline or the end of the turn, and handles it. One byte isn't a packet: DTLS with the page is over.
    fn receive(&mut self) -> Result<(), Box<dyn Error>> {
        let mut datagram = [0; 2_048];
        let deadline = self.channels.next_moment().map_or(TURN, |at| at.saturating_sub(self.start.elapsed()));
        self.socket.set_read_timeout(Some(deadline.clamp(Duration::from_millis(1), TURN)))?;
        let Ok((length, from)) = self.socket.recv_from(&mut datagram) else { return Ok(()) };
        if length == 1 && self.peer == Some(from) {
            let _ = self.channels.abort(b""); // refused if it is over already
            return Ok(());
        }
        match self.channels.handle_packet(self.start.elapsed(), &datagram[..length], random::draw()?)? {
            Verdict::Answer(answer) => drop(self.socket.send_to(&answer, from)),
            Verdict::Taken => self.peer = Some(from),
            Verdict::Dropped(_) => {}
        }
        Ok(())
    }

    /// One association, until it is over and all was reported.
    fn run(&mut self) -> Result<(), Box<dyn Error>> {
        while self.channels.ended().is_none() {
            self.channels.on_moment(self.start.elapsed());
            self.open()?;
            self.report()?;
            self.answer()?;
            self.transmit()?;
            self.receive()?;
        }
        self.waiting.clear();
        self.report()
    }
}

fn main() -> Result<(), Box<dyn Error>> {
    let port = std::env::args().nth(1).unwrap_or("9899".into()).parse()?;
    let socket = UdpSocket::bind(("127.0.0.1", port))?;
    loop {
        let mut side = Side::new(socket.try_clone()?)?;
        side.run()?;
        println!("the association is over: {:?}", side.channels.ended());
    }
}
