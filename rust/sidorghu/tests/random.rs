//! Whole associations by random calls, over a network that loses, repeats and reorders packets, with some allocations refused: each message arrives once
//! and as it was sent, ordered ones in order, and both endpoints close.
#![allow(unsafe_code, reason = "an allocator of this program's")]

mod common;
mod rough;
use common::{config, draw, ms};
use rough::{Numbers, roughly};
use sidorghu::{End, Endpoint, Key, NoMemory, SendError, SendOptions, State, Verdict};
use std::collections::VecDeque;
use std::time::Duration;

/// A message: its stream, its number there, and how many bytes it has. Its bytes follow from these. The last stream's are unordered.
#[derive(Clone, Copy, Debug, PartialEq)]
struct Text {
    stream: u16,
    number: usize,
    length: usize,
}

impl Text {
    fn bytes(self) -> Vec<u8> {
        let (mut numbers, mut bytes) = (Numbers(self.number as u64 * 4 + u64::from(self.stream)), self.number.to_be_bytes().to_vec());
        bytes.extend((0..self.length).map(|_| numbers.below(256) as u8));
        bytes
    }
}

struct Side {
    endpoint: Endpoint,
    /// What it sent and the peer hasn't taken, by stream.
    sent: [VecDeque<Text>; 4],
    accepted: usize,
}

struct Run {
    sides: [Side; 2],
    /// Packets on their way, each with the side that it goes to.
    network: Vec<(usize, Vec<u8>)>,
    numbers: Numbers,
    now: Duration,
    /// Whether packets are lost, repeated and reordered, and allocations refused.
    is_rough: bool,
    refused: usize,
}

impl Run {
    fn new(seed: u64) -> Run {
        let side = |endpoint| Side { endpoint, sent: Default::default(), accepted: 0 };
        let mut caller = Endpoint::caller(config(true));
        caller.connect(ms(0), draw(7)).unwrap();
        let sides = [side(caller), side(Endpoint::listener(config(false), Key::new([7; 32])))];
        Run { sides, network: Vec::new(), numbers: Numbers(seed), now: ms(0), is_rough: true, refused: 0 }
    }

    /// Makes a call at a side, with allocations refused if it is rough. `None` if the call says that one was.
    fn call<T>(&mut self, side: usize, call: impl FnOnce(&mut Endpoint) -> Result<T, NoMemory>) -> Option<T> {
        let answer = roughly(self.is_rough, &mut self.numbers, || call(&mut self.sides[side].endpoint));
        self.refused += usize::from(answer.is_err());
        answer.ok()
    }

    fn send(&mut self, side: usize) {
        let stream = self.numbers.below(4) as u16;
        let text = Text { stream, number: self.sides[side].accepted, length: 1 << self.numbers.below(13) };
        let (bytes, options) = (text.bytes(), SendOptions::new().ordered(stream < 3).payload_id(text.length as u32));
        let answer = self.call(side, |endpoint| match endpoint.send(stream, &bytes, options) {
            Err(SendError::NoMemory) => Err(NoMemory),
            Err(SendError::NotOpen | SendError::QueueFull) => Ok(None),
            answer => Ok(Some(answer.expect("a reason that doesn't apply"))),
        });
        if let Some(Some(ticket)) = answer {
            let side = &mut self.sides[side];
            side.accepted += 1;
            side.sent[usize::from(stream)].push_back(text);
            assert_eq!(ticket.0, side.accepted as u64);
        }
    }

    fn transmit(&mut self, side: usize) -> bool {
        let now = self.now;
        let Some(Some(sent)) = self.call(side, |endpoint| endpoint.poll_transmit(now)) else { return false };
        if !self.is_rough || self.numbers.below(10) > 0 {
            self.network.push((1 - side, sent.packet.clone()));
        }
        self.sides[side].endpoint.recycle(sent);
        true
    }

    fn deliver(&mut self) {
        if self.network.is_empty() {
            return;
        }
        let at = if self.is_rough { self.numbers.below(self.network.len().min(8)) } else { 0 };
        let (side, packet) = self.network.remove(at);
        let (now, draw) = (self.now, draw(1 + self.numbers.below(1_000) as u32));
        match self.call(side, |endpoint| endpoint.handle_packet(now, &packet, draw)) {
            Some(Verdict::Answer(answer)) => self.network.push((1 - side, answer)),
            Some(Verdict::Taken | Verdict::Dropped(_)) | None => {}
        }
        if self.is_rough && self.numbers.below(10) == 0 {
            self.network.push((side, packet)); // once more
        }
    }

    /// Takes what the peer of a side sent, and compares it.
    fn take(&mut self, side: usize) {
        let from = self.numbers.below(4) as u16;
        let Some(message) = self.sides[side].endpoint.take_next(from) else { return };
        let sent = &mut self.sides[1 - side].sent[usize::from(message.stream())];
        let (bytes, length) = (message.to_vec().unwrap(), message.payload_id() as usize);
        let at = sent.iter().position(|it| it.length == length && it.bytes() == bytes).expect("a message that was sent, once");
        let text = sent.remove(at).expect("it is there");
        assert!(at == 0 || !message.is_ordered(), "out of order: {text:?}");
        assert_eq!((text.stream, text.stream < 3, text.length as u32), (message.stream(), message.is_ordered(), message.payload_id()));
        self.sides[side].endpoint.give_back(message);
    }

    fn pass_time(&mut self, most: usize) {
        let next = self.sides.iter().filter_map(|side| side.endpoint.next_moment()).min();
        self.now += ms(self.numbers.below(most) as u64 + 1);
        if let Some(next) = next.filter(|_| self.network.is_empty()) {
            self.now = self.now.max(next);
        }
        for side in &mut self.sides {
            side.endpoint.on_moment(self.now);
        }
    }

    fn step(&mut self) {
        let side = self.numbers.below(2);
        match self.numbers.below(12) {
            0..2 => self.send(side),
            2..5 => drop(self.transmit(side)),
            5..9 => self.deliver(),
            9..11 => self.take(side),
            _ => self.pass_time(40),
        }
    }

    /// Goes on smoothly until nothing happens any more.
    fn settle(&mut self) {
        self.is_rough = false;
        loop {
            while (self.transmit(0) | self.transmit(1)) || !self.network.is_empty() {
                self.deliver();
                (0..4).for_each(|at| self.take(at % 2));
            }
            if self.sides.iter().all(|side| side.endpoint.next_moment().is_none()) {
                return;
            }
            self.pass_time(1);
        }
    }
}

#[test]
fn messages_arrive_once_and_in_order_whatever_is_lost_or_refused() {
    let (mut accepted, mut refused) = (0, 0);
    for seed in 1..=40 {
        let mut run = Run::new(seed);
        (0..3_000).for_each(|_| run.step());
        run.settle();
        for side in &run.sides {
            assert_eq!(side.endpoint.state(), State::Established, "seed {seed}");
        }
        (0..10_000).for_each(|at| run.take(at % 2));
        for side in &run.sides {
            assert!(side.sent.iter().all(VecDeque::is_empty), "seed {seed}: {:?}", side.sent);
            assert_eq!((side.endpoint.queued(), side.endpoint.outstanding(), side.endpoint.tickets()), (0, 0, side.accepted as u64));
            accepted += side.accepted;
        }
        run.sides[0].endpoint.shutdown().unwrap();
        run.settle();
        assert!(run.sides.iter().all(|side| side.endpoint.ended() == Some(End::Completed)), "seed {seed}");
        refused += run.refused;
    }
    assert!(accepted > 5_000 && refused > 1_000, "{accepted} messages, {refused} calls that said so");
}
