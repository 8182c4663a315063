//! Each call that allocates, with each of its allocations refused in turn: it says so, and made again it does what it would have done.
#![allow(unsafe_code, reason = "an allocator of this program's")]

mod common;
use common::{carry, config, draw, lose, ms, pair, settle};
use sidorghu::{AbortError, Endpoint, Key, Message, NoMemory, ResetError, SendError, SendOptions, Sent, State, Verdict};
use std::alloc::{GlobalAlloc, Layout, System};
use std::cell::Cell;
use std::fmt::Debug;

/// Memory of the system's, of which each thread may have one allocation refused.
struct Refusing;

thread_local! {
    /// How many allocations are granted before one is refused; `None`: all are granted.
    static GRANTED: Cell<Option<usize>> = const { Cell::new(None) };
}

/// Whether this allocation is refused.
fn refuses() -> bool {
    let left = GRANTED.get();
    GRANTED.set(left.and_then(|many| many.checked_sub(1)));
    left == Some(0)
}

// SAFETY: it is the system's allocator, but that some allocations fail.
unsafe impl GlobalAlloc for Refusing {
    unsafe fn alloc(&self, layout: Layout) -> *mut u8 {
        if refuses() { std::ptr::null_mut() } else { unsafe { System.alloc(layout) } }
    }
    unsafe fn dealloc(&self, at: *mut u8, layout: Layout) {
        unsafe { System.dealloc(at, layout) }
    }
    unsafe fn realloc(&self, at: *mut u8, layout: Layout, size: usize) -> *mut u8 {
        if refuses() { std::ptr::null_mut() } else { unsafe { System.realloc(at, layout, size) } }
    }
}

#[global_allocator]
static MEMORY: Refusing = Refusing;

/// What a call answers if the allocation after so many is refused, and whether one was.
fn refused_after<T>(granted: usize, call: impl FnOnce() -> T) -> (T, bool) {
    GRANTED.set(Some(granted));
    let answer = call();
    (answer, GRANTED.replace(None).is_none())
}

/// Makes a call with each of its allocations refused in turn. A call that says so is made again; then `is_done` looks. Returns how many there were.
fn each_refused<T, A, E: Debug + PartialEq>(
    make: impl Fn() -> T,
    call: impl Fn(&mut T) -> Result<A, E>,
    no_memory: E,
    is_done: impl Fn(T, A) -> bool,
) -> usize {
    for granted in 0.. {
        let mut it = make();
        let (answer, refused) = refused_after(granted, || call(&mut it));
        let answer = answer.or_else(|fault| {
            assert_eq!(fault, no_memory);
            assert!(refused, "an error without a refused allocation");
            call(&mut it)
        });
        assert!(is_done(it, answer.expect("memory")), "after {granted} allocations");
        if !refused {
            return granted;
        }
    }
    unreachable!("each call ends")
}

/// A pair, and a packet of the first for the second.
fn pair_and_packet() -> (Endpoint, Endpoint, Sent) {
    let (mut a, b) = pair();
    a.send(0, &[1; 100], SendOptions::new()).unwrap();
    let sent = lose(&mut a, ms(1)).remove(0);
    (a, b, sent)
}

fn is_received(mut b: Endpoint) -> bool {
    b.take(0).is_some_and(|message| message.len() == 100)
}

#[test]
fn endpoints_are_opened() {
    let make = || Endpoint::opened(config(true), draw(1), draw(2));
    let many = each_refused(|| (), |()| make(), NoMemory, |(), endpoint| endpoint.state() == State::Established);
    assert!(many > 0);
}

#[test]
fn messages_are_queued() {
    let options = SendOptions::new().max_retransmits(3).until(ms(99));
    for options in [SendOptions::new(), options] {
        let send = |(a, _): &mut (Endpoint, Endpoint)| a.send(0, &[1; 100], options);
        let many = each_refused(pair, send, SendError::NoMemory, |(mut a, mut b), _| {
            settle(&mut a, &mut b, ms(1));
            a.tickets() == 1 && is_received(b)
        });
        assert!(many > 0);
    }
}

#[test]
fn packets_are_made() {
    let make = || {
        let (mut a, b) = pair();
        a.send(0, &[1; 100], SendOptions::new()).unwrap();
        (a, b)
    };
    let many = each_refused(
        make,
        |(a, _)| a.poll_transmit(ms(1)),
        NoMemory,
        |(_, mut b), sent| b.handle_packet(ms(1), &sent.unwrap().packet, draw(9)) == Ok(Verdict::Taken) && is_received(b),
    );
    assert!(many > 0);
    let abort = |(a, _): &mut (Endpoint, Endpoint)| a.abort(b"over");
    let many = each_refused(pair, abort, AbortError::NoMemory, |(_, mut b), packet| b.handle_packet(ms(1), &packet, draw(9)) == Ok(Verdict::Taken));
    assert!(many > 0);
}

#[test]
fn packets_are_handled() {
    let handle = |(_, b, sent): &mut (Endpoint, Endpoint, Sent)| b.handle_packet(ms(1), &sent.packet, draw(9));
    let many = each_refused(pair_and_packet, handle, NoMemory, |(_, b, _), verdict| verdict == Verdict::Taken && is_received(b));
    assert!(many > 0);
    let opening = || {
        let (mut a, mut b) = (Endpoint::caller(config(true)), Endpoint::listener(config(false), Key::new([7; 32])));
        a.connect(ms(0), draw(7)).unwrap();
        carry(&mut a, &mut b, ms(0));
        let echo = lose(&mut a, ms(0)).remove(0);
        (a, b, echo)
    };
    let many = each_refused(opening, handle, NoMemory, |(_, b, _), verdict| verdict == Verdict::Taken && b.state() == State::Established);
    assert!(many > 0);
}

#[test]
fn init_is_answered() {
    let make = || {
        let mut a = Endpoint::caller(config(true));
        a.connect(ms(0), draw(7)).unwrap();
        let init = lose(&mut a, ms(0)).remove(0).packet;
        (Endpoint::listener(config(false), Key::new([7; 32])), init)
    };
    let many = each_refused(make, |(b, init)| b.handle_packet(ms(0), init, draw(9)), NoMemory, |_, verdict| matches!(verdict, Verdict::Answer(_)));
    assert!(many > 0);
}

#[test]
fn streams_are_reset() {
    let reset = |(a, _): &mut (Endpoint, Endpoint)| a.reset(1);
    each_refused(pair, reset, ResetError::NoMemory, |(mut a, mut b), ()| {
        settle(&mut a, &mut b, ms(1));
        b.take_reset().is_some_and(|reset| reset.stream == 1)
    });
}

#[test]
fn messages_are_copied() {
    let make = || {
        let (_, mut b, sent) = pair_and_packet();
        let _ = b.handle_packet(ms(1), &sent.packet, draw(9)).unwrap();
        (b.take(0).unwrap(), b"kept".to_vec())
    };
    let many = each_refused(make, |(message, _): &mut (Message, _)| message.to_vec(), NoMemory, |_, bytes| bytes == [1; 100]);
    assert!(many > 0);
    let append = |(message, bytes): &mut (Message, Vec<u8>)| {
        let before = bytes.len();
        message.append_to(bytes).inspect_err(|_| assert_eq!(bytes.len(), before))
    };
    let many = each_refused(make, append, NoMemory, |(_, bytes), ()| bytes.starts_with(b"kept") && bytes.len() == 104);
    assert!(many > 0);
}

#[test]
fn memory_is_given_back_or_kept() {
    let burst = || {
        let (mut a, mut b) = pair();
        for _ in 0..1_000 {
            a.send(0, &[1; 30], SendOptions::new()).unwrap();
        }
        settle(&mut a, &mut b, ms(1));
        while let Some(message) = b.take(0) {
            b.give_back(message);
        }
        a.send(0, &[1; 100], SendOptions::new()).unwrap();
        (a, b)
    };
    let trim = |(a, b): &mut (Endpoint, Endpoint)| {
        a.trim();
        b.trim();
        Ok(())
    };
    let many = each_refused(burst, trim, NoMemory, |(mut a, mut b), ()| {
        settle(&mut a, &mut b, ms(2));
        is_received(b)
    });
    assert!(many > 0);
}

#[cfg(feature = "channels")]
#[path = "memory/channels.rs"]
mod of_channels;
