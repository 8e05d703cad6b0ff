//! `cargo fuzz run swarm`: a target as it is written for the crate `wasm-smith`, which draws the configuration too. Replace `consume` with
//! the code under test.
#![no_main]
use libfuzzer_sys::arbitrary::{Arbitrary, Result, Unstructured};
use libfuzzer_sys::fuzz_target;
use wasm_smith::{Config, Module};

fn consume(module: &[u8]) {
    assert!(module.starts_with(b"\0asm"));
}

fn run(data: &[u8]) -> Result<()> {
    let mut u = Unstructured::new(data);
    let config = Config {
        allow_start_export: false,
        max_memories: 1,
        ..Config::arbitrary(&mut u)?
    };
    let mut module = Module::new(config, &mut u)?;
    module.ensure_termination(1000).expect("no body should be raw bytes");
    consume(&module.to_bytes());
    Ok(())
}

fuzz_target!(|data: &[u8]| {
    let _ = run(data);
});
