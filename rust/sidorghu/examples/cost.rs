//! What a message costs over the crate: `cost MANY SIZE TURNS [i]`, as `tests/c/cost.c` has it over the library for C. A turn is MANY messages of SIZE
//! bytes sent one way, all packets to and fro, and the messages taken; with `i` they go as I-DATA. The difference of two runs, in instructions, is
//! what turns cost:
//!
//! ```text
//! valgrind --tool=callgrind --callgrind-out-file=/dev/null cost 19 64 300
//! ```

use sidorghu::{Config, Draw, Endpoint, SendOptions};
use std::error::Error;
use std::time::Duration;

/// Passes the next packet of one endpoint to the other. False if there was none.
#[inline]
fn carry(from: &mut Endpoint, to: &mut Endpoint, draw: Draw) -> Result<bool, Box<dyn Error>> {
    let Some(sent) = from.poll_transmit(Duration::ZERO)? else { return Ok(false) };
    let _ = to.handle_packet(Duration::ZERO, &sent.packet, draw)?;
    from.recycle(sent);
    Ok(true)
}

/// One turn: how many messages were taken.
fn turn(a: &mut Endpoint, b: &mut Endpoint, draw: Draw, many: usize, text: &mut [u8], buffer: &mut [u8]) -> Result<usize, Box<dyn Error>> {
    let mut taken = 0;
    for _ in 0..many {
        text.fill(7);
        a.send(0, text, SendOptions::new())?;
    }
    while carry(a, b, draw)? {
        while let Some(message) = b.take(0) {
            taken += usize::from(message.copy_into(buffer)? == text.len());
            b.give_back(message);
        }
        carry(b, a, draw)?;
    }
    Ok(taken)
}

fn main() -> Result<(), Box<dyn Error>> {
    let words: Vec<String> = std::env::args().skip(1).collect();
    let [many, size, turns, ..] = words.as_slice() else { return Err("cost MANY SIZE TURNS [i]".into()) };
    let (many, turns) = (many.parse::<usize>()?, turns.parse::<usize>()?);
    let (mut text, mut buffer) = (vec![0; size.parse()?], vec![0; 65_536]);
    let config = |own, peer| {
        let plain = Config::builder(own, peer).packet_limit(1_500).fragment(1_400).streams(1, 1).receive_buffer(1_000_000).stream_reset(false);
        let plain = plain.partial_reliability(false).standard_closing(false).congestion_control(false).fast_retransmit(false);
        plain.interleaving(words.len() > 3).build()
    };
    let (one, other) = (Draw::new(7, 100).ok_or("0")?, Draw::new(9, 500).ok_or("0")?);
    let mut a = Endpoint::opened(config(5_000, 5_001)?, one, other)?;
    let mut b = Endpoint::opened(config(5_001, 5_000)?, other, one)?;
    let mut taken = 0;
    for _ in 0..turns {
        taken += turn(&mut a, &mut b, one, many, &mut text, &mut buffer)?;
    }
    if taken == many * turns { Ok(()) } else { Err("not all arrived".into()) }
}
