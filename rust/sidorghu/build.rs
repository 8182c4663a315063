//! Erases the proved sources up to the data channels, or up to the endpoint.

fn main() {
    let channels = std::env::var_os("CARGO_FEATURE_CHANNELS").is_some();
    sidorghu_eraser::build(&[if channels { "sctp_channels" } else { "sctp_endpoint" }]);
}
