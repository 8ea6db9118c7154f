//! Says where libnbft_sum.a is: in the folder NBFT_SUM, or where `make bench` has `bench/native` write it; and, as
//! NBFT_TIMED has it, what is timed.

use std::path::PathBuf;

fn main() {
    println!("cargo:rerun-if-env-changed=NBFT_SUM");
    println!("cargo:rerun-if-env-changed=NBFT_TIMED");
    let package = PathBuf::from(std::env::var("CARGO_MANIFEST_DIR").expect("cargo sets it"));
    let folder = std::env::var("NBFT_SUM").map_or_else(|_| package.join("../target/native"), PathBuf::from);
    println!("cargo:rerun-if-changed={}", folder.join("libnbft_sum.a").display());
    println!("cargo:rustc-link-search=native={}", folder.display());
    println!("cargo:rustc-link-lib=static=nbft_sum");
    let timed = std::env::var("NBFT_TIMED").unwrap_or_else(|_| "the library".to_string());
    println!("cargo:rustc-env=TIMED={timed}");
}
