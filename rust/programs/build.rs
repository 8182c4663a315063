//! Erases the programs, those that run the stored rows, and the crates with tests, with all crates below them.

fn main() {
    sidorghu_eraser::build(&[
        "sctp_trace_main",
        "sctp_end_main",
        "sctp_look_main",
        "sctp_rows",
        "sctp_call_rows",
        "sctp_channel_rows",
        "sctp_broken",
        "sctp_example",
        "sctp_socket",
        "sctp_tests",
    ]);
}
