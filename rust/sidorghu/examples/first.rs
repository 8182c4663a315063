//! The first program of docs/RUST.md: two endpoints in one process, and each packet is passed from one to the other.

use sidorghu::{Config, Draw, Endpoint, Key, SendOptions, Verdict};
use std::error::Error;
use std::time::Duration;

/// Passes the next packet of `from` to `to`, and its answer back. False if there was none.
fn carry(from: &mut Endpoint, to: &mut Endpoint, now: Duration) -> Result<bool, Box<dyn Error>> {
    let Some(sent) = from.poll_transmit(now)? else { return Ok(false) };
    if let Verdict::Answer(answer) = to.handle_packet(now, &sent.packet, draw(9))? {
        let _ = from.handle_packet(now, &answer, draw(9))?;
    }
    from.recycle(sent);
    Ok(true)
}

/// In a real program: eight random bytes of a secure source.
fn draw(byte: u8) -> Draw {
    Draw::from_random([byte; 8])
}

fn main() -> Result<(), Box<dyn Error>> {
    let mut caller = Endpoint::caller(Config::builder(5_000, 5_001).build()?);
    let mut listener = Endpoint::listener(Config::builder(5_001, 5_000).build()?, Key::new([7; 32]));
    let mut now = Duration::ZERO; // in a real program: Instant::elapsed of its start
    caller.connect(now, draw(7))?;
    while carry(&mut caller, &mut listener, now)? | carry(&mut listener, &mut caller, now)? {}

    now += Duration::from_millis(10);
    let ticket = caller.send(0, b"hello", SendOptions::new())?;
    while carry(&mut caller, &mut listener, now)? | carry(&mut listener, &mut caller, now)? {}
    let message = listener.take(0).ok_or("nothing was received")?;
    println!("{:?}, acknowledged: {}", String::from_utf8(message.to_vec()?)?, caller.acknowledged(ticket));
    Ok(())
}
