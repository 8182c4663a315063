//! Data channels by random calls, over a network that loses, repeats and reorders packets, with some allocations refused: each channel is reported with
//! its label, all that was sent on it arrives in order, and then it is closed at both sides. Each stream has one channel: docs/CHANNELS.md, "Limits", says
//! what may happen to the next one.
#![cfg(feature = "channels")]
#![allow(unsafe_code, reason = "an allocator of this program's")]

mod common;
mod rough;
use common::{draw, ms};
use rough::{Numbers, roughly};
use sidorghu::channels::{ChannelOptions, ChannelSendError, CloseError, DtlsRole, Event, Ignored, OpenError};
use sidorghu::{Channels, Config, Key, NoMemory, ResetError, SendError, Verdict};
use std::collections::{BTreeMap, VecDeque};
use std::time::Duration;

#[derive(Default)]
struct Side {
    /// The channels by their streams, as this side knows them: each by its label.
    channels: BTreeMap<u16, String>,
    /// Those that it has closed, and that aren't reported closed.
    closing: Vec<u16>,
    /// By label, what it sent and the peer wasn't told.
    sent: BTreeMap<String, VecDeque<String>>,
    opened: usize,
    closed: usize,
}

struct Run {
    ends: [Channels; 2],
    sides: [Side; 2],
    network: Vec<(usize, Vec<u8>)>,
    numbers: Numbers,
    now: Duration,
    is_rough: bool,
    refused: usize,
}

/// An error of an allocation, told from the others.
fn memory<T, E>(answer: Result<T, E>, is_memory: impl Fn(&E) -> bool) -> Result<Result<T, E>, NoMemory> {
    match answer {
        Err(why) if is_memory(&why) => Err(NoMemory),
        answer => Ok(answer),
    }
}

impl Run {
    fn new(seed: u64) -> Run {
        let config = Config::for_data_channels(5_000, 5_000).unwrap();
        let mut caller = Channels::caller(config, DtlsRole::Client).unwrap();
        caller.connect(ms(0), draw(7)).unwrap();
        let ends = [caller, Channels::listener(config, Key::new([7; 32]), DtlsRole::Server).unwrap()];
        Run { ends, sides: Default::default(), network: Vec::new(), numbers: Numbers(seed), now: ms(0), is_rough: true, refused: 0 }
    }

    /// Makes a call at a side, with allocations refused if it is rough. `None` if the call says that one was.
    fn call<T>(&mut self, side: usize, call: impl FnOnce(&mut Channels) -> Result<T, NoMemory>) -> Option<T> {
        let answer = roughly(self.is_rough, &mut self.numbers, || call(&mut self.ends[side]));
        self.refused += usize::from(answer.is_err());
        answer.ok()
    }

    fn open(&mut self, at: usize) {
        let label = format!("{at} {}", self.sides[at].opened);
        let options = ChannelOptions::new(&label);
        let stream = (2 * self.sides[at].opened + at) as u16;
        let answer = self.call(at, |it| memory(it.open_on(stream, &options), |why| *why == OpenError::Refused(SendError::NoMemory)));
        match answer {
            Some(Ok(())) => {
                assert_eq!(self.sides[at].channels.insert(stream, label), None);
                self.sides[at].opened += 1;
            }
            Some(Err(why)) => assert!(matches!(why, OpenError::NoStream | OpenError::Refused(SendError::QueueFull | SendError::NotOpen)), "{why}"),
            None => {}
        }
    }

    /// One of the channels that a side may use.
    fn some_channel(&mut self, at: usize) -> Option<u16> {
        let side = &self.sides[at];
        let open: Vec<u16> = side.channels.keys().copied().filter(|stream| !side.closing.contains(stream)).collect();
        (!open.is_empty()).then(|| open[self.numbers.below(open.len())])
    }

    fn send(&mut self, at: usize) {
        let Some(stream) = self.some_channel(at) else { return };
        let text = format!("{}", self.numbers.below(1 << 20)).repeat(1 << self.numbers.below(9));
        let now = self.now;
        let no_memory = |why: &ChannelSendError| *why == ChannelSendError::Refused(SendError::NoMemory);
        match self.call(at, |it| memory(it.send(now, stream, &text), no_memory)) {
            Some(Ok(_)) => {
                let label = self.sides[at].channels[&stream].clone();
                self.sides[at].sent.entry(label).or_default().push_back(text);
            }
            Some(Err(ChannelSendError::NoChannel | ChannelSendError::Refused(SendError::QueueFull))) | None => {} // the peer closes it, or later
            Some(Err(why)) => panic!("{why:?}"),
        }
    }

    fn close(&mut self, at: usize) {
        let Some(stream) = self.some_channel(at) else { return };
        match self.call(at, |it| memory(it.close(stream), |why| *why == CloseError::Refused(ResetError::NoMemory))) {
            Some(Ok(())) => self.sides[at].closing.push(stream),
            Some(Err(why)) => assert_eq!(why, CloseError::NoChannel), // the peer has closed it, which isn't reported yet
            None => {}
        }
    }

    fn hear(&mut self, at: usize) {
        let Some(Some(event)) = self.call(at, Channels::next_event) else { return };
        match event {
            Event::Incoming { stream, parameters } => {
                let label = parameters.label_text().unwrap().to_owned();
                assert_eq!((usize::from(stream) % 2, self.sides[at].channels.insert(stream, label)), (1 - at, None));
            }
            Event::Message { stream, text: true, payload } => {
                let label = &self.sides[at].channels[&stream];
                let sent = self.sides[1 - at].sent.get_mut(label).and_then(VecDeque::pop_front).expect("it was sent");
                assert_eq!(sent.as_bytes(), payload.to_vec().unwrap(), "on {label}");
                self.ends[at].give_back_payload(payload);
            }
            Event::Closed { stream } => {
                let side = &mut self.sides[at];
                side.closed += usize::from(side.channels.remove(&stream).is_some()); // once more if the peer's request was performed twice
                side.closing.retain(|it| *it != stream);
            }
            Event::Opened { stream } => assert_eq!(usize::from(stream) % 2, at),
            Event::Ignored { stream, why: Ignored::Closing } => assert!(self.sides[at].closing.contains(&stream)), // the ACK of its opening
            other => panic!("{other:?}"),
        }
    }

    fn transmit(&mut self, at: usize) -> bool {
        let now = self.now;
        let Some(Some(sent)) = self.call(at, |it| it.poll_transmit(now)) else { return false };
        if !self.is_rough || self.numbers.below(10) > 0 {
            self.network.push((1 - at, sent.packet.clone()));
        }
        self.ends[at].recycle(sent);
        true
    }

    fn deliver(&mut self) {
        if self.network.is_empty() {
            return;
        }
        let place = if self.is_rough { self.numbers.below(self.network.len().min(8)) } else { 0 };
        let (at, packet) = self.network.remove(place);
        let now = self.now;
        if let Some(Verdict::Answer(answer)) = self.call(at, |it| it.handle_packet(now, &packet, draw(9))) {
            self.network.push((1 - at, answer));
        }
        if self.is_rough && self.numbers.below(10) == 0 {
            self.network.push((at, packet)); // once more
        }
    }

    fn pass_time(&mut self, most: usize) {
        let next = self.ends.iter().filter_map(Channels::next_moment).min();
        self.now += ms(self.numbers.below(most) as u64 + 1);
        if let Some(next) = next.filter(|_| self.network.is_empty()) {
            self.now = self.now.max(next);
        }
        self.ends.iter_mut().for_each(|it| it.on_moment(self.now));
    }

    fn step(&mut self) {
        let at = self.numbers.below(2);
        match self.numbers.below(40) {
            0 => self.open(at),
            1 => self.close(at),
            2..8 => self.send(at),
            8..16 => drop(self.transmit(at)),
            16..28 => self.deliver(),
            28..38 => self.hear(at),
            _ => self.pass_time(40),
        }
    }

    /// Goes on smoothly until nothing happens any more.
    fn settle(&mut self) {
        self.is_rough = false;
        loop {
            while (self.transmit(0) | self.transmit(1)) || !self.network.is_empty() {
                self.deliver();
                (0..20).for_each(|count| self.hear(count % 2));
            }
            if self.ends.iter().all(|it| it.next_moment().is_none()) {
                return;
            }
            self.pass_time(1);
        }
    }
}

#[test]
fn channels_say_what_was_sent_and_close_whatever_is_lost_or_refused() {
    let (mut opened, mut refused) = (0, 0);
    for seed in 1..=30 {
        let mut run = Run::new(seed);
        (0..8_000).for_each(|_| run.step());
        run.settle();
        while let Some(at) = (0..2).find(|at| run.some_channel(*at).is_some()) {
            run.close(at);
            run.settle();
        }
        (0..10_000).for_each(|count| run.hear(count % 2));
        for side in &run.sides {
            assert!(side.sent.values().all(VecDeque::is_empty) && side.channels.is_empty(), "seed {seed}");
            assert_eq!(side.closed, run.sides[0].opened + run.sides[1].opened, "seed {seed}");
            opened += side.opened;
        }
        refused += run.refused;
    }
    assert!(opened > 1_000 && refused > 1_000, "{opened} channels, {refused} calls that said so");
}
