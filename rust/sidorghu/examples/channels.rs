//! Two ends of data channels in one process: `cargo run --release --example channels`.
//!
//! Between a page and a program, packets go through DTLS: `examples/webrtc.rs` has that.

use sidorghu::channels::{ChannelOptions, Channels, DtlsRole, Event, Reliability};
use sidorghu::{Config, Draw, Key, Verdict};
use std::error::Error;
use std::time::Duration;

/// In a real program: eight random bytes of a secure source.
fn draw(byte: u8) -> Draw {
    Draw::from_random([byte; 8])
}

/// Passes packets until neither side has one.
fn settle(a: &mut Channels, b: &mut Channels, now: Duration) -> Result<(), Box<dyn Error>> {
    while carry(a, b, now)? | carry(b, a, now)? {}
    Ok(())
}

/// Passes the next packet of one side to the other, and its answer back. False if there was none.
fn carry(from: &mut Channels, to: &mut Channels, now: Duration) -> Result<bool, Box<dyn Error>> {
    let Some(sent) = from.poll_transmit(now)? else { return Ok(false) };
    if let Verdict::Answer(answer) = to.handle_packet(now, &sent.packet, draw(9))? {
        let _ = from.handle_packet(now, &answer, draw(9))?;
    }
    from.recycle(sent);
    Ok(true)
}

/// Prints what is reported, and sends each text back in capitals if asked to.
fn report(name: &str, channels: &mut Channels, now: Duration, answers: bool) -> Result<(), Box<dyn Error>> {
    while let Some(event) = channels.next_event()? {
        match event {
            Event::Message { stream, text: true, payload } => {
                let text = String::from_utf8(payload.to_vec()?)?;
                channels.give_back_payload(payload);
                println!("{name}: channel {stream}: {text:?}");
                if answers {
                    channels.send(now, stream, &text.to_uppercase())?;
                }
            }
            Event::Incoming { stream, parameters } => println!("{name}: channel {stream}, {:?}: opened by the peer", parameters.label_text()),
            other => println!("{name}: {other:?}"),
        }
    }
    Ok(())
}

fn main() -> Result<(), Box<dyn Error>> {
    let config = Config::for_data_channels(5_000, 5_000)?;
    let mut page = Channels::caller(config, DtlsRole::Client)?;
    let mut program = Channels::listener(config, Key::new([7; 32]), DtlsRole::Server)?;
    let mut now = Duration::ZERO;
    page.connect(now, draw(7))?;
    settle(&mut page, &mut program, now)?;

    let chat = page.open(&ChannelOptions::new("chat"))?;
    let positions = page.open(&ChannelOptions::new("positions").unordered().reliability(Reliability::MaxRetransmits(0)))?;
    page.send(now, chat, "hello")?;
    page.send(now, positions, &[1, 2, 3])?;
    for _ in 0..3 {
        now += Duration::from_millis(10);
        settle(&mut page, &mut program, now)?;
        report("program", &mut program, now, true)?;
        report("page", &mut page, now, false)?;
    }
    page.close(chat)?;
    for _ in 0..3 {
        now += Duration::from_millis(10);
        settle(&mut page, &mut program, now)?;
        report("program", &mut program, now, true)?;
        report("page", &mut page, now, false)?;
    }
    let goodbye = page.abort(b"goodbye")?;
    let _ = program.handle_packet(now, &goodbye, draw(9))?;
    report("program", &mut program, now, true)?;
    report("page", &mut page, now, false)?;
    println!("{:?} and {:?}", page.ended(), program.ended());
    Ok(())
}
