//! `cargo fuzz run module`: a target as it is written for the crate `wasm-smith`, but for its `use`. Replace `consume` with the code under
//! test.
#![no_main]
use libfuzzer_sys::fuzz_target;
use smith::wasm_smith::Module;

fn consume(module: &[u8]) {
    assert!(module.starts_with(b"\0asm"));
}

fuzz_target!(|module: Module| {
    consume(&module.to_bytes());
});
