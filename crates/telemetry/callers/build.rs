//! Links the library: copy this beside `Cargo.toml`.
//!
//! The folder of `libtelemetry.a` is that which the environment variable TELEMETRY_FOLDER names, or
//! `telemetry` beside this file.
fn main() {
    let beside = format!("{}/telemetry", std::env::var("CARGO_MANIFEST_DIR").unwrap_or_default());
    let folder = std::env::var("TELEMETRY_FOLDER").unwrap_or(beside);
    println!("cargo:rerun-if-env-changed=TELEMETRY_FOLDER");
    println!("cargo:rerun-if-changed={folder}/libtelemetry.a");
    println!("cargo:rustc-link-search=native={folder}");
    println!("cargo:rustc-link-lib=static=telemetry");
}
