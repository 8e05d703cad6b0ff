//! A stand-in for the crate `libfuzzer-sys`, to build and run targets without it: a target runs on each file that is an argument.
pub use arbitrary;

use arbitrary::{Arbitrary, Unstructured};

/// Whether libFuzzer may keep an input.
pub enum Corpus {
    /// It may.
    Keep,
    /// It may not.
    Reject,
}

/// Runs `target` on the bytes of each file that is an argument, and prints on how many of them there was a value.
pub fn run<'a, T: Arbitrary<'a>>(target: impl Fn(T)) {
    let mut count = 0;
    for name in std::env::args_os().skip(1) {
        let bytes: &'static [u8] = std::fs::read(name).expect("an argument should be a file").leak();
        if let Ok(value) = T::arbitrary_take_rest(Unstructured::new(bytes)) {
            count += 1;
            target(value);
        }
    }
    println!("{count}");
}

/// Defines the `main` of a target.
#[macro_export]
macro_rules! fuzz_target {
    (|$value:ident: $kind:ty $(,)?| -> $result:ty $body:block) => {
        $crate::fuzz_target!(|$value: $kind| {
            let result: $result = $body;
            result
        });
    };
    (|$value:ident: $kind:ty $(,)?| $body:expr) => {
        #[no_mangle]
        pub extern "C" fn main(_: i32, _: *const *const u8) -> i32 {
            $crate::run(|$value: $kind| {
                let _ = $body;
            });
            0
        }
    };
}
