//! Every stored row, through the erased sources: a test for each subject, which tells the case and its first line that differs, and one for
//! each program, which compares all bytes and counts the cases.

mod stored;

use stored::transcript::{CALLS, CHANNELS, ROWS};

/// A test for each subject of a program, and one for the whole of it.
macro_rules! subjects {
    ($program:ident: $($name:ident => $subject:literal,)+) => {
        #[test]
        fn all_of_it() {
            super::$program.whole(&[$($subject),+]);
        }
        $(
            #[test]
            fn $name() {
                super::$program.subject($subject);
            }
        )+
    };
}

mod sctp_rows {
    subjects! { ROWS:
        lines => "Lines: what counts, what is refused, and by which kind",
        the_pair => "The pair: open, bags, the clock, the draw",
        opening_by_packets => "Opening by packets",
        opening_the_init => "Opening: the INIT that a listener gets",
        opening_the_init_ack => "Opening: the INIT ACK that a caller gets",
        opening_the_cookie => "Opening: the cookie",
        one_message => "One message, and a few",
        fragments_and_streams => "Fragments, streams, the SACK",
        whole_packets => "Whole packets: ports, tags, unknown types, reports, heartbeats",
        moments => "Moments",
        abandoning => "Abandoning",
        i_data => "I-DATA",
        delayed_sacks => "SACKs that wait, FORWARDs that fit a packet, 1,024 streams",
        closing => "Closing",
        aborting => "Aborting",
        faults_of_the_peer => "Faults of the peer",
        chunks_in_states => "Each chunk in each state",
        calls_in_states => "Each call in each state",
        options => "Two ends that differ: lines options",
        two_clocks => "A clock for each endpoint: lines later and moment",
        congestion_control => "Fast retransmission, congestion control, RTO.Min",
        stream_reset => "Stream reset",
        examples => "The examples",
        words_and_bytes => "Words of the program, bytes of packets and chunks",
        sctp_end => "sctp-end: one end, line by line",
        sctp_look => "sctp-look: a run as a picture",
    }
}

mod sctp_call_rows {
    subjects! { CALLS:
        a_sender_and_a_receiver => "A sender and a receiver",
        resets_of_streams => "Resets of streams",
        numbers => "Numbers of TSNs, SSNs and MIDs",
        checksums_and_bytes => "Checksums, chunks and packets as bytes",
        cookies => "MACs and cookies",
    }
}

mod sctp_channel_rows {
    subjects! { CHANNELS:
        a_channel => "a channel, from its opening to its end",
        bounds_of_calls => "which streams, and the bounds of calls",
        bytes_of_messages => "the bytes of messages",
        messages_that_arrive => "messages that arrive",
        before_and_after_the_ack => "before the ACK, and after it",
        closing => "closing",
        a_full_queue => "a full queue",
        limits => "limits",
        the_buffered_amount => "the buffered amount",
        memory_of_a_burst => "memory of a burst",
        ends_that_cant_be => "ends that can't be",
    }
}
