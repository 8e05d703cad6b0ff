use crate::library::judged;
use crate::{Config, Refused};
use std::fmt;

/// What a file is.
#[derive(Clone, Copy, Debug, PartialEq, Eq)]
pub enum Kind {
    /// A valid module.
    Valid,
    /// A module that isn't valid.
    Invalid,
    /// No module, or one with a form of a feature that is off.
    Malformed,
    /// A module of which some body isn't judged, and all before that body is valid.
    NotJudged,
}

/// What [`check`] says of a file. Its numbers are those that `smith.h` names.
#[derive(Clone, Debug, PartialEq, Eq)]
pub struct Verdict {
    /// What the file is.
    pub kind: Kind,
    /// The rule that an invalid module breaks, or 0.
    pub rule: u32,
    /// The rule that a malformed file breaks, or 0.
    pub reason: u32,
    /// The kind of the item, or 0.
    pub item: u32,
    /// The index of the item, with imported items first, or 0.
    pub index: u64,
    /// The index of the instruction in the item's body, or of the run of locals.
    pub inner: Option<u64>,
    /// Where in the file that is, counted from 0.
    pub offset: Option<u64>,
    /// The same in words, in one line.
    pub words: String,
}

impl fmt::Display for Verdict {
    fn fmt(&self, f: &mut fmt::Formatter<'_>) -> fmt::Result {
        f.write_str(&self.words)
    }
}

pub(crate) fn kind_of(number: u32) -> Kind {
    match number {
        0 => Kind::Valid,
        1 => Kind::Invalid,
        2 => Kind::Malformed,
        _ => Kind::NotJudged,
    }
}

pub(crate) fn unless_nowhere(number: u64) -> Option<u64> {
    (number != u64::MAX).then_some(number)
}

/// Returns whether `file` is a valid module in the binary format, and if not, where and by which rule. All features are on that are known,
/// changed by the fields that the text of `config` sets.
///
/// # Errors
///
/// Returns an error if the text of `config` is none, or if there is not enough memory.
pub fn check(config: &Config, file: &[u8]) -> Result<Verdict, Refused> {
    let (numbers, words) = judged(config.text(), file)?;
    Ok(Verdict {
        kind: kind_of(numbers.kind),
        rule: numbers.rule,
        reason: numbers.reason,
        item: numbers.item,
        index: numbers.index,
        inner: unless_nowhere(numbers.inner),
        offset: unless_nowhere(numbers.offset),
        words,
    })
}
