//! Links the engine's archives where they are there: without the first the benchmark times plain Rust alone, without the second no session.

use std::path::PathBuf;

/// The archive of the repository, or the one that the variable names; where it is there, the code is compiled with the word.
fn link(word: &str, variable: &str, archive: &str) {
    println!("cargo:rustc-check-cfg=cfg({word})");
    println!("cargo:rerun-if-env-changed={variable}");
    let here = PathBuf::from(std::env::var("CARGO_MANIFEST_DIR").unwrap());
    let archive = match std::env::var(variable) {
        Ok(path) => PathBuf::from(path),
        Err(_) => here.join("../target/staticlib").join(archive),
    };
    println!("cargo:rerun-if-changed={}", archive.display());
    if archive.exists() {
        println!("cargo:rustc-link-arg-bin=bench={}", archive.canonicalize().unwrap().display());
        println!("cargo:rustc-cfg={word}");
    }
}

fn main() {
    link("engine", "GOZHMERIK_LIBRARY", "libffi.a");
    link("session", "GOZHMERIK_SESSION_LIBRARY", "libffi_session.a");
}
