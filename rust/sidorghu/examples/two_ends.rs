//! Two endpoints in one process, and a network between them that loses every fifth packet: `cargo run --release --example two_ends`.
//!
//! It is what a program does with an endpoint, turn by turn: packets out, packets in, and the time; here the time goes on by itself.

use sidorghu::{Config, Draw, End, Endpoint, Key, SendOptions, Verdict};
use std::error::Error;
use std::time::Duration;

/// The packets that were carried, and whether the network still loses some of them.
struct Network {
    packets: u32,
    loses: bool,
}

impl Network {
    /// Carries what one endpoint has to send to the other, or loses it, and carries answers back.
    fn carry(&mut self, from: &mut Endpoint, to: &mut Endpoint, now: Duration) -> Result<(), Box<dyn Error>> {
        while let Some(sent) = from.poll_transmit(now)? {
            self.packets += 1;
            if self.loses && self.packets % 5 == 0 {
                println!("{now:>8.1?}  packet {} is lost", self.packets);
            } else if let Verdict::Answer(answer) = to.handle_packet(now, &sent.packet, draw(9))? {
                let _ = from.handle_packet(now, &answer, draw(9))?;
            }
            from.recycle(sent);
        }
        Ok(())
    }

    /// Carries packets both ways until both endpoints have nothing more to do, and the time on from one timer to the next.
    fn settle(&mut self, a: &mut Endpoint, b: &mut Endpoint, now: &mut Duration) -> Result<(), Box<dyn Error>> {
        loop {
            let before = self.packets;
            self.carry(a, b, *now)?;
            self.carry(b, a, *now)?;
            if self.packets > before {
                continue;
            }
            let Some(next) = a.next_moment().into_iter().chain(b.next_moment()).min() else { return Ok(()) };
            *now = next;
            a.on_moment(next);
            b.on_moment(next);
        }
    }
}

/// In a real program: eight random bytes of a secure source.
fn draw(byte: u8) -> Draw {
    Draw::from_random([byte; 8])
}

fn main() -> Result<(), Box<dyn Error>> {
    let mut caller = Endpoint::caller(Config::builder(5_000, 5_001).build()?);
    let mut listener = Endpoint::listener(Config::builder(5_001, 5_000).build()?, Key::new([7; 32]));
    let (mut network, mut now) = (Network { packets: 0, loses: true }, Duration::ZERO);

    caller.connect(now, draw(7))?;
    network.settle(&mut caller, &mut listener, &mut now)?;
    println!("{now:>8.1?}  {:?} and {:?}", caller.state(), listener.state());

    let hello = caller.send(0, b"hello", SendOptions::new())?;
    let large = caller.send(1, &[b'.'; 20_000], SendOptions::new().unordered().payload_id(53))?;
    network.settle(&mut caller, &mut listener, &mut now)?;
    while let Some(message) = listener.take_next(0) {
        println!("{now:>8.1?}  {message:?}");
        listener.give_back(message);
    }
    println!("{now:>8.1?}  acknowledged: {} and {}", caller.acknowledged(hello), caller.acknowledged(large));

    network.loses = false;
    caller.shutdown()?;
    network.settle(&mut caller, &mut listener, &mut now)?;
    println!("{now:>8.1?}  {:?} and {:?}", caller.ended(), listener.ended());
    if caller.ended() != Some(End::Completed) {
        return Err("the association wasn't closed".into());
    }
    Ok(())
}
