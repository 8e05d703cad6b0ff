//! `cargo fuzz run consume`: each input becomes a module. Replace `consume` with the code under test.
#![no_main]
use libfuzzer_sys::{fuzz_target, Corpus};

fn consume(module: &[u8]) {
    assert!(module.starts_with(b"\0asm"));
}

fuzz_target!(|input: &[u8]| -> Corpus {
    match smith::module(&smith::Config::default(), input) {
        Ok(module) => {
            consume(&module);
            Corpus::Keep
        }
        Err(_) => Corpus::Reject,
    }
});
