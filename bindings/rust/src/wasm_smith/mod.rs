//! The names of the crate `wasm-smith` 0.219.1, so that its users change a line of their `Cargo.toml` and a `use`:
//!
//! ```toml
//! smith = { path = "../smith/bindings/rust", features = ["arbitrary"] }
//! ```
//!
//! The same bytes produce another module than there. A module takes all the bytes that are left of a source. `docs/BINDINGS.md` says what
//! else differs.
#![warn(missing_docs, missing_debug_implementations)]

mod config;
mod exports;
mod kinds;

pub use config::{Config, MemoryOffsetChoices};
pub use kinds::{InstructionKind, InstructionKinds};
pub use crate::Refused;

use arbitrary::{Arbitrary, Error, Result, Unstructured};
use std::fmt;

// Numbers of `smith.h`.
const NO_MEMORY: u32 = 2;
const CONFIG_TEXT: u32 = 3;
const CONFIG: u32 = 4;
const SHAPE: u32 = 6;
const NO_SHAPE: u32 = 8;

/// A module with bodies of instructions.
pub struct Module {
    config: Config,
    input: Vec<u8>,
    fuel: Option<u32>,
    is_observed: bool,
    bytes: Vec<u8>,
}

impl<'a> Arbitrary<'a> for Module {
    /// Makes a module of the default configuration and all bytes that are left.
    fn arbitrary(u: &mut Unstructured<'a>) -> Result<Self> {
        Module::new(Config::default(), u)
    }
}

impl fmt::Debug for Module {
    fn fmt(&self, f: &mut fmt::Formatter<'_>) -> fmt::Result {
        f.debug_struct("Module").field("config", &self.config).finish_non_exhaustive()
    }
}

impl Module {
    /// Makes a module of `config` and all bytes that are left of `u`.
    ///
    /// # Errors
    ///
    /// Returns [`Error::IncorrectFormat`] if the bytes don't reach a minimum of `config`, if exports would pass its type size, or if the
    /// module is too long for the binary format.
    ///
    /// # Panics
    ///
    /// Panics if no bytes can make a module of `config`: a minimum is above its maximum, a maximum is above its own bound, the three memory
    /// offset choices are 0, or a shape is no module or needs what `config` lacks. Panics if there is not enough memory.
    pub fn new(config: Config, u: &mut Unstructured<'_>) -> Result<Self> {
        let mut config = config;
        config.sanitize();
        let input = u.bytes(u.len())?.to_vec();
        match crate::module(&config.kept(), &input) {
            Ok(bytes) => Ok(Module { config, input, fuel: None, is_observed: false, bytes }),
            Err(refused) if matches!(refused.status, NO_MEMORY | CONFIG_TEXT | CONFIG | SHAPE | NO_SHAPE) => panic!("{refused}"),
            Err(_) => Err(Error::IncorrectFormat),
        }
    }

    /// Returns the configuration, with features off that lack others that they need.
    pub fn config(&self) -> &Config {
        &self.config
    }

    /// Returns the module in the binary format.
    pub fn to_bytes(&self) -> Vec<u8> {
        self.bytes.clone()
    }

    /// Adds a mutable i32 that counts down from `default_fuel`, at each call and at each iteration of a loop, and a trap at 0. It is the
    /// last global and the last export of the module. Returns its index. A further call counts from another number.
    ///
    /// # Errors
    ///
    /// Returns the reason if a body is raw bytes, which `allow_invalid_funcs` permits, or if the module is then too long for the binary
    /// format. The module is unchanged then.
    pub fn ensure_termination(&mut self, default_fuel: u32) -> std::result::Result<u32, Refused> {
        self.bytes = crate::module(&self.config.with_additions(self.is_observed, Some(default_fuel)), &self.input)?;
        self.fuel = Some(default_fuel);
        Ok(self.last_index())
    }

    /// Adds three mutable globals that are 0 at first, the sinks: one i32 and two i64. Each function mixes the values of its locals into
    /// them where it ends, so that two engines that compute other values differ in their sinks. Returns the index of the first.
    ///
    /// The sinks are the last exports, `sink_i32`, `sink_i64` and `sink_i64_2`, each followed by `_` if an earlier export has its name. A
    /// global that counts fuel is added after them, so its index is three higher than before. A further call changes nothing.
    ///
    /// The crate `wasm-smith` 0.219.1 has no such call.
    ///
    /// # Errors
    ///
    /// Returns the reason in the same cases as [`Module::ensure_termination`]. The module is unchanged then.
    pub fn observe(&mut self) -> std::result::Result<u32, Refused> {
        self.bytes = crate::module(&self.config.with_additions(true, self.fuel), &self.input)?;
        self.is_observed = true;
        Ok(self.last_index() - if self.fuel.is_some() { 3 } else { 2 })
    }

    /// Returns the index of the last export, a global that was added.
    fn last_index(&self) -> u32 {
        exports::last_index(&self.bytes).expect("the last export should be a global that was added")
    }
}
