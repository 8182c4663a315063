//! Links the library that `install.sh PREFIX` put into PREFIX, which SCTP_ENDPOINT_PREFIX names: anew when its files change.

fn main() {
    println!("cargo:rerun-if-env-changed=SCTP_ENDPOINT_PREFIX");
    println!("cargo:rerun-if-changed=build.rs");
    if let Ok(prefix) = std::env::var("SCTP_ENDPOINT_PREFIX") {
        println!("cargo:rustc-link-search=native={prefix}/lib");
        for library in ["sctp_endpoint", "sctp_endpoint_malloc"] {
            println!("cargo:rerun-if-changed={prefix}/lib/lib{library}.a");
        }
    }
    println!("cargo:rustc-link-lib=static=sctp_endpoint");
    println!("cargo:rustc-link-lib=static=sctp_endpoint_malloc");
}
