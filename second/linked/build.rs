//! Says where libnbft.a is: in the folder NBFT_LIB, or where `make library` leaves it.

use std::path::PathBuf;

fn main() {
    println!("cargo:rerun-if-env-changed=NBFT_LIB");
    let package = PathBuf::from(std::env::var("CARGO_MANIFEST_DIR").expect("cargo sets it"));
    let folder = match std::env::var("NBFT_LIB") {
        Ok(folder) => PathBuf::from(folder),
        Err(_) => package.join("../../target/staticlib"),
    };
    let library = folder.join("libnbft.a");
    println!("cargo:rerun-if-changed={}", library.display());
    println!("cargo:rustc-link-search=native={}", folder.display());
    println!("cargo:rustc-link-lib=static=nbft");
}
