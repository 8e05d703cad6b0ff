use crate::check::{kind_of, unless_nowhere, Kind};
use crate::{Config, Refused};
use std::fmt;
use std::str::FromStr;

// The names of families, in the order of their numbers in `smith.h`.
const NAMES: [&str; 55] = [
    "operand-type", "missing-operand", "extra-operand", "block-type", "function-result", "index-past-end", "other-entity",
    "reference-type", "label", "cast-hierarchy", "tail-call", "dead-code", "unset-local", "immutable-global", "immutable-field",
    "packed-field", "undeclared-function", "alignment", "offset", "lane", "supertype", "final-type", "forward-reference", "limits",
    "duplicate-export", "export-index", "start-function", "constant-type", "non-constant", "later-global", "function-type", "tag-type",
    "import-type", "element-segment", "data-segment", "long-integer", "unused-bits", "section-size", "body-size", "list-count",
    "function-count", "data-count", "section-order", "section-twice", "unknown-section", "left-over-byte", "not-utf8", "unknown-flag",
    "unknown-type", "unknown-opcode", "missing-end", "second-end", "preamble", "cut-file",
    "data-count-missing",
];

/// A family of changes that make a module an invalid file, each of which breaks rules of one kind.
#[derive(Clone, Copy, Debug, PartialEq, Eq, PartialOrd, Ord, Hash)]
pub struct Family(u32);

impl Family {
    /// Returns each family, in the order of their numbers.
    pub fn all() -> impl Iterator<Item = Family> {
        (1..=NAMES.len() as u32).map(Family)
    }

    /// Returns the name of the family, such as `operand-type`.
    pub fn name(self) -> &'static str {
        NAMES[self.0 as usize - 1]
    }

    /// Returns the number of the family, which `smith.h` names.
    pub fn number(self) -> u32 {
        self.0
    }
}

impl fmt::Display for Family {
    fn fmt(&self, f: &mut fmt::Formatter<'_>) -> fmt::Result {
        f.write_str(self.name())
    }
}

impl FromStr for Family {
    type Err = String;

    /// Reads the name of a family.
    fn from_str(name: &str) -> Result<Self, String> {
        Family::all().find(|family| family.name() == name).ok_or_else(|| format!("`{name}` names no family of changes"))
    }
}

/// A file that is no valid module, and its first fault. Its numbers are those that `smith.h` names.
#[derive(Clone, Debug, PartialEq, Eq)]
pub struct Invalid {
    /// The bytes of the file.
    pub file: Vec<u8>,
    /// The family of the change by which it differs from a valid module.
    pub family: Family,
    /// What the file is: `Invalid` or `Malformed`.
    pub kind: Kind,
    /// The rule that an invalid module breaks, or 0.
    pub rule: u32,
    /// The rule that a malformed file breaks, or 0.
    pub reason: u32,
    /// The kind of the item, or 0.
    pub item: u32,
    /// The index of the item, with imported items first, or 0.
    pub index: u64,
    /// The index of the instruction in the item's body, or of the run of locals.
    pub inner: Option<u64>,
    /// Where in the file that is, counted from 0.
    pub offset: u64,
}

/// Returns the module of `config` and `input` with one change that breaks a rule, of one of `families`, or of any if there are none. The
/// file is invalid under the features that `config` turns on, and may be valid under more.
///
/// # Errors
///
/// Returns an error in the same cases as [`module`](crate::module), and one with the status 9 if no change that was tried breaks a rule.
pub fn invalid(config: &Config, families: &[Family], input: &[u8]) -> Result<Invalid, Refused> {
    let numbers: Vec<u32> = families.iter().map(|family| family.0).collect();
    let (file, fault) = config.invalid(&numbers, input)?;
    let found = fault.verdict;
    Ok(Invalid {
        file,
        family: Family(fault.family),
        kind: kind_of(found.kind),
        rule: found.rule,
        reason: found.reason,
        item: found.item,
        index: found.index,
        inner: unless_nowhere(found.inner),
        offset: found.offset,
    })
}
