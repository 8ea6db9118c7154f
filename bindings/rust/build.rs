//! Links libnbft.a from the folder NBFT_LIB, an absolute path, or from where `make library` leaves it.

use std::env;
use std::path::{Path, PathBuf};

fn main() {
    println!("cargo:rerun-if-env-changed=NBFT_LIB");
    let folder = env::var_os("NBFT_LIB").map_or_else(made_here, PathBuf::from);
    let library = folder.join("libnbft.a");
    println!("cargo:rerun-if-changed={}", library.display());
    assert!(
        library.is_file(),
        "there is no {}: set NBFT_LIB to the folder, by its absolute path, that has libnbft.a (/usr/local/lib after \
         `make install`), or run `make library` at the top of the repository, which needs the Rattle toolchain",
        library.display()
    );
    println!("cargo:rustc-link-search=native={}", folder.display());
    println!("cargo:rustc-link-lib=static=nbft");
}

fn made_here() -> PathBuf {
    let package = env::var_os("CARGO_MANIFEST_DIR").expect("cargo says where the package is");
    Path::new(&package).join("../../target/staticlib")
}
