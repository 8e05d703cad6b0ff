//! [`smith::wasm_smith`], the names of the crate `wasm-smith` 0.219.1, as a crate, so that its users change one line, of their
//! `Cargo.toml`:
//!
//! ```toml
//! wasm-smith = { package = "smith-drop-in", path = "../smith/bindings/rust/drop_in" }
//! ```
pub use smith::wasm_smith::*;
