//! Links the library: copy this beside `Cargo.toml`.
//!
//! The folder of `libprotocol.a` is that which the environment variable PROTOCOL_FOLDER names, or
//! `protocol` beside this file.
fn main() {
    let beside = format!("{}/protocol", std::env::var("CARGO_MANIFEST_DIR").unwrap_or_default());
    let folder = std::env::var("PROTOCOL_FOLDER").unwrap_or(beside);
    println!("cargo:rerun-if-env-changed=PROTOCOL_FOLDER");
    println!("cargo:rerun-if-changed={folder}/libprotocol.a");
    println!("cargo:rustc-link-search=native={folder}");
    println!("cargo:rustc-link-lib=static=protocol");
}
