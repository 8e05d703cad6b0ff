//! Valid WebAssembly modules from bytes, and files that are no valid modules, by the proved library `libsmith.a`.
//!
//! The feature `arbitrary` adds `wasm_smith`, a module with the names of the crate of this name.
mod check;
mod invalid;
mod library;
#[cfg(feature = "arbitrary")]
pub mod wasm_smith;

pub use check::{check, Kind, Verdict};
pub use invalid::{invalid, Family, Invalid};
use library::{smith_binary_shaped, smith_text_shaped, smith_wat_shaped, utf8, Call, FaultNumbers, Kept, Shapes};
use std::fmt;

/// A configuration, read once, and its shapes, which are read for each module. Any number of threads may use it at the same time.
#[derive(Clone, Debug)]
pub struct Config {
    text: String,
    kept: Result<Kept, Refused>,
    shapes: Shapes,
}

impl Config {
    /// Creates a configuration from `text`, a JSON object in the form of the crate `wasm-smith`. If it is none, each call that uses the
    /// configuration returns the reason.
    pub fn from_json(text: impl Into<String>) -> Self {
        let text = text.into();
        let kept = Kept::read(&text);
        Config { text, kept, shapes: Shapes::default() }
    }

    /// Sets what modules may import to the imports of `shape`, a module in the binary or the text format, or to anything if it is empty. If
    /// it is no module, each call that makes a module returns the reason.
    #[must_use]
    pub fn with_available_imports(mut self, shape: impl Into<Vec<u8>>) -> Self {
        self.shapes.available_imports = shape.into();
        self
    }

    /// Sets what modules export to the exports of `shape`, in the same way.
    #[must_use]
    pub fn with_exports(mut self, shape: impl Into<Vec<u8>>) -> Self {
        self.shapes.exports = shape.into();
        self
    }

    /// Sets the first types of modules, and all of their imports and exports, to those of `shape`, in the same way. The other two shapes
    /// are then not used.
    #[must_use]
    pub fn with_module_shape(mut self, shape: impl Into<Vec<u8>>) -> Self {
        self.shapes.module_shape = shape.into();
        self
    }

    pub(crate) fn text(&self) -> &str {
        &self.text
    }

    fn invalid(&self, families: &[u32], input: &[u8]) -> Result<(Vec<u8>, FaultNumbers), Refused> {
        self.kept.as_ref().map_err(Refused::clone)?.invalid(&self.shapes, families, input)
    }

    fn made(&self, call: Call, input: &[u8]) -> Result<Vec<u8>, Refused> {
        self.kept.as_ref().map_err(Refused::clone)?.made(call, &self.shapes, input)
    }
}

impl Default for Config {
    fn default() -> Self {
        Config::from_json("")
    }
}

/// Configurations are equal if their texts and their shapes are.
impl PartialEq for Config {
    fn eq(&self, other: &Self) -> bool {
        self.text == other.text && self.shapes == other.shapes
    }
}

impl Eq for Config {}

/// The reason why there is no module.
#[derive(Clone, Debug, PartialEq, Eq)]
pub struct Refused {
    /// The status, a number that `smith.h` names.
    pub status: u32,
    /// The reason in words.
    pub words: String,
}

impl fmt::Display for Refused {
    fn fmt(&self, f: &mut fmt::Formatter<'_>) -> fmt::Result {
        f.write_str(&self.words)
    }
}

impl std::error::Error for Refused {}

/// Returns the module of `config` and `input`, with bodies of instructions, in the binary format.
///
/// # Errors
///
/// Returns an error if `config` or a shape of it is wrong, if `input` doesn't reach a minimum of it, if exports would pass the type size,
/// if the module is too long for the binary format, or if there is not enough memory.
pub fn module(config: &Config, input: &[u8]) -> Result<Vec<u8>, Refused> {
    config.made(smith_binary_shaped, input)
}

/// Returns the same module in the text format.
///
/// # Errors
///
/// Returns an error in the same cases as [`module`], but a module is too long only if there is no index for the counter of fuel and the sinks.
pub fn text(config: &Config, input: &[u8]) -> Result<String, Refused> {
    config.made(smith_text_shaped, input).map(utf8)
}

/// Returns the same module in the text format, for readers: with the parameters and the results of each function type that is used, and
/// without the comments of [`text`].
///
/// # Errors
///
/// Returns an error in the same cases as [`text`].
pub fn wat(config: &Config, input: &[u8]) -> Result<String, Refused> {
    config.made(smith_wat_shaped, input).map(utf8)
}
