//! Kinds of instructions, and sets of them.
use std::str::FromStr;

/// A kind of instructions, as grouped in the WebAssembly Core Specification. Three kinds exist twice: complete, and without floats.
#[derive(Clone, Copy, Debug, PartialEq, Eq)]
#[repr(u16)]
#[allow(missing_docs)]
pub enum InstructionKind {
    NumericInt = 0x001,
    Numeric = 0x003,
    VectorInt = 0x004,
    Vector = 0x00c,
    Reference = 0x010,
    Parametric = 0x020,
    Variable = 0x040,
    Table = 0x080,
    MemoryInt = 0x100,
    Memory = 0x300,
    Control = 0x400,
    Aggregate = 0x800,
}

impl InstructionKind {
    /// All kinds with their names, in the order of their bits.
    pub(crate) const NAMED: [(&'static str, InstructionKind); 12] = [
        ("numeric_non_float", InstructionKind::NumericInt),
        ("numeric", InstructionKind::Numeric),
        ("vector_non_float", InstructionKind::VectorInt),
        ("vector", InstructionKind::Vector),
        ("reference", InstructionKind::Reference),
        ("parametric", InstructionKind::Parametric),
        ("variable", InstructionKind::Variable),
        ("table", InstructionKind::Table),
        ("memory_non_float", InstructionKind::MemoryInt),
        ("memory", InstructionKind::Memory),
        ("control", InstructionKind::Control),
        ("aggregate", InstructionKind::Aggregate),
    ];
}

impl FromStr for InstructionKind {
    type Err = String;

    /// Reads the name of a kind, ignoring ASCII case.
    fn from_str(name: &str) -> Result<Self, String> {
        let named = InstructionKind::NAMED.iter().find(|(other, _)| other.eq_ignore_ascii_case(name));
        named.map(|(_, kind)| *kind).ok_or_else(|| format!("`{name}` names no kind of instructions"))
    }
}

/// A set of kinds of instructions. A kind with floats includes the kind without floats.
#[derive(Clone, Copy, Debug, Default, PartialEq, Eq)]
pub struct InstructionKinds(pub(crate) u16);

impl InstructionKinds {
    /// Creates the set of `kinds`.
    pub fn new(kinds: &[InstructionKind]) -> Self {
        InstructionKinds(kinds.iter().fold(0, |bits, kind| bits | *kind as u16))
    }

    /// Returns the set of all kinds.
    pub fn all() -> Self {
        InstructionKinds(0xfff)
    }

    /// Returns the empty set.
    pub fn none() -> Self {
        InstructionKinds(0)
    }

    /// Returns whether the set has `kind`.
    pub fn contains(&self, kind: InstructionKind) -> bool {
        self.0 & kind as u16 == kind as u16
    }

    /// Returns the set with each kind replaced by that without floats.
    pub fn without_floats(&self) -> Self {
        InstructionKinds(self.0 & !0x20a)
    }
}

impl FromStr for InstructionKinds {
    type Err = String;

    /// Reads names of kinds between commas.
    fn from_str(names: &str) -> Result<Self, String> {
        let kinds: Vec<_> = names.split(',').map(InstructionKind::from_str).collect::<Result<_, _>>()?;
        Ok(InstructionKinds::new(&kinds))
    }
}
