//! The configuration of a module, and its JSON.
use super::kinds::{InstructionKind, InstructionKinds};
use arbitrary::{Arbitrary, Result, Unstructured};
use std::cell::RefCell;
use std::fmt::{self, Write};
use std::rc::Rc;

/// Weights for the position of the offset of a memory access: below the minimum size of the memory, between its minimum and its maximum, or
/// past its maximum. Each weight is relative to the sum of the three.
#[derive(Clone, Debug, PartialEq, Eq)]
pub struct MemoryOffsetChoices(pub u32, pub u32, pub u32);

impl Default for MemoryOffsetChoices {
    fn default() -> Self {
        MemoryOffsetChoices(90, 9, 1)
    }
}

/// A value that JSON has.
trait Json {
    fn write_json(&self, out: &mut String) -> fmt::Result;
}

macro_rules! plain_json {
    ($($kind:ty)*) => {
        $(impl Json for $kind {
            fn write_json(&self, out: &mut String) -> fmt::Result {
                write!(out, "{self}")
            }
        })*
    };
}

plain_json!(bool u8 u32 u64 u128 usize);

impl Json for InstructionKinds {
    fn write_json(&self, out: &mut String) -> fmt::Result {
        write!(out, "{}", self.0)
    }
}

impl Json for MemoryOffsetChoices {
    fn write_json(&self, out: &mut String) -> fmt::Result {
        write!(out, "[{}, {}, {}]", self.0, self.1, self.2)
    }
}

/// A shape, whose bytes are given apart from the text.
impl Json for Option<Vec<u8>> {
    fn write_json(&self, out: &mut String) -> fmt::Result {
        out.write_str("null")
    }
}

/// Returns the bytes of a shape for `smith`, which takes no bytes for no shape, where here they are an empty text, which is a module.
fn bytes_of(shape: &Option<Vec<u8>>) -> &[u8] {
    match shape.as_deref() {
        None => b"",
        Some(b"") => b"(module)",
        Some(bytes) => bytes,
    }
}

macro_rules! define_config {
    ($($(#[$about:meta])* $field:ident: $kind:ty = $default:expr,)*) => {
        /// The configuration of a module: the numbers of items of each kind, the proposals, and further rules.
        ///
        /// The defaults are those of `wasm-smith` 0.219.1. What that version doesn't have is off.
        #[derive(Clone, Debug, PartialEq, Eq)]
        pub struct Config {
            $($(#[$about])* pub $field: $kind,)*
        }

        impl Default for Config {
            fn default() -> Self {
                Config { $($field: $default,)* }
            }
        }

        impl Config {
            /// Writes the members of the JSON object, each with a comma.
            fn write_members(&self, out: &mut String) -> fmt::Result {
                $(
                    write!(out, "\"{}\": ", stringify!($field).replace('_', "-"))?;
                    self.$field.write_json(out)?;
                    out.write_str(", ")?;
                )*
                Ok(())
            }
        }
    };
}

define_config! {
    /// The minimum number of types. Defaults to `0`.
    min_types: usize = 0,
    /// The maximum number of types. Defaults to `100`.
    max_types: usize = 100,
    /// The minimum number of imports, including each item of a compact group. Defaults to `0`.
    min_imports: usize = 0,
    /// The maximum number of imports, including each item of a compact group. Defaults to `100`.
    max_imports: usize = 100,
    /// The minimum number of tags. Defaults to `0`.
    min_tags: usize = 0,
    /// The maximum number of tags. Defaults to `100`.
    max_tags: usize = 100,
    /// The minimum number of functions. Defaults to `0`.
    min_funcs: usize = 0,
    /// The maximum number of functions. Defaults to `100`.
    max_funcs: usize = 100,
    /// The minimum number of globals. Defaults to `0`.
    min_globals: usize = 0,
    /// The maximum number of globals. Defaults to `100`.
    max_globals: usize = 100,
    /// The minimum number of exports. Defaults to `0`.
    min_exports: usize = 0,
    /// The maximum number of exports. Defaults to `100`.
    max_exports: usize = 100,
    /// The minimum number of element segments. Defaults to `0`.
    min_element_segments: usize = 0,
    /// The maximum number of element segments. Defaults to `100`.
    max_element_segments: usize = 100,
    /// The minimum number of items in each element segment. Defaults to `0`.
    min_elements: usize = 0,
    /// The maximum number of items in all element segments together. Defaults to `100`.
    max_elements: usize = 100,
    /// The minimum number of data segments. Defaults to `0`.
    min_data_segments: usize = 0,
    /// The maximum number of data segments. Defaults to `100`.
    max_data_segments: usize = 100,
    /// The minimum number of memories. Defaults to `0`.
    min_memories: u32 = 0,
    /// The maximum number of memories. Defaults to `1`.
    max_memories: usize = 1,
    /// The minimum number of tables. Defaults to `0`.
    min_tables: u32 = 0,
    /// The maximum number of tables. Defaults to `1`.
    max_tables: usize = 1,
    /// The upper bound for the minimum and the maximum of a 32-bit memory, in bytes. Defaults to `2^32`.
    max_memory32_bytes: u64 = 1 << 32,
    /// The upper bound for the minimum and the maximum of a 64-bit memory, in bytes. Defaults to `2^64`.
    max_memory64_bytes: u128 = 1 << 64,
    /// Whether each memory has a maximum. Defaults to `false`.
    memory_max_size_required: bool = false,
    /// The upper bound for the minimum and the maximum of a table, in elements. Defaults to 1,000,000.
    max_table_elements: u64 = 1_000_000,
    /// Whether each table has a maximum. Defaults to `false`.
    table_max_size_required: bool = false,
    /// The maximum type size of a module: the sum of the sizes of its imports and exports. Defaults to `1000`.
    max_type_size: u32 = 1000,
    /// The number of instructions with operands that a constant expression may draw before it is completed by the shortest means. Defaults
    /// to `50`.
    const_expr_fuel: u32 = 50,
    /// Whether the length of an array in a constant expression is a small number, charged to `const_expr_fuel`, instead of any i32
    /// expression. Defaults to `false`.
    limit_arrays_in_const_exprs: bool = false,
    /// Whether a module may have a start function. Defaults to `true`.
    allow_start_export: bool = true,
    /// Whether each function, table, memory, global and tag is exported exactly once. Defaults to `false`.
    export_everything: bool = false,
    /// Whether f32 and f64 may occur in types and constants, and instructions on floats in bodies. Defaults to `true`.
    allow_floats: bool = true,
    /// Whether active segments fit in their tables and memories, so that they never trap, and no instruction of a generated body traps
    /// except `unreachable`. Defaults to `false`.
    disallow_traps: bool = false,
    /// Whether a body may be raw bytes of the input, which need not be valid. Defaults to `false`.
    allow_invalid_funcs: bool = false,
    /// References as value types, tables of other types than `funcref`, element expressions, and a second table. Defaults to `true`.
    reference_types_enabled: bool = true,
    /// Struct and array types, recursive groups, subtypes, and typed references. Defaults to `true`.
    gc_enabled: bool = true,
    /// Exact references. Defaults to `false`.
    custom_descriptors_enabled: bool = false,
    /// Functions with several results. Defaults to `true`.
    multi_value_enabled: bool = true,
    /// Passive and declared segments, and segments with an explicit table. Defaults to `false`.
    bulk_memory_enabled: bool = false,
    /// The value type v128. Required by `relaxed_simd_enabled`. Defaults to `true`.
    simd_enabled: bool = true,
    /// Tags and exception references. Defaults to `true`.
    exceptions_enabled: bool = true,
    /// Shared memories. Required by `shared_everything_threads_enabled` and `acquire_release_atomics_enabled`. Defaults to `true`.
    threads_enabled: bool = true,
    /// Shared types, tables, globals and functions. Defaults to `false`.
    shared_everything_threads_enabled: bool = false,
    /// 64-bit memories and tables. Defaults to `false`.
    memory64_enabled: bool = false,
    /// Memories with an explicit page size of 1 or 65,536 bytes. Defaults to `false`.
    custom_page_sizes_enabled: bool = false,
    /// Addition, subtraction and multiplication in constant expressions. Defaults to `false`.
    extended_const_enabled: bool = false,
    /// Groups of imports with a common module name, or a common module name and type. Defaults to `false`.
    compact_imports_enabled: bool = false,
    /// Relaxed vector instructions. Defaults to `true`.
    relaxed_simd_enabled: bool = true,
    /// Saturating conversions from floats to integers. Defaults to `true`.
    saturating_float_to_int_enabled: bool = true,
    /// Sign-extension instructions. Defaults to `true`.
    sign_extension_ops_enabled: bool = true,
    /// Tail calls. Defaults to `true`.
    tail_call_enabled: bool = true,
    /// 128-bit arithmetic. Defaults to `false`.
    wide_arithmetic_enabled: bool = false,
    /// Ignored: atomic accesses with acquire and release ordering. Defaults to `false`.
    acquire_release_atomics_enabled: bool = false,
    /// Ignored: accesses to several bytes of an array at once. Defaults to `false`.
    multibyte_array_access_enabled: bool = false,
    /// Non-nullable references, to heap types for which an existing struct type or function provides one without operands. Defaults to
    /// `false`.
    non_nullable_enabled: bool = false,
    /// The kinds of instructions that bodies may have, without those on floats if `allow_floats` is `false`. Defaults to all.
    allowed_instructions: InstructionKinds = InstructionKinds::all(),
    /// The weights for the position of the offset of a memory access. Defaults to (90, 9, 1).
    memory_offset_choices: MemoryOffsetChoices = MemoryOffsetChoices::default(),
    /// The maximum number of statements and values to choose for a body, besides leaves, such as constants and locals. Defaults to `100`.
    max_instructions: usize = 100,
    /// Whether each NaN whose bits an engine chooses is made the positive canonical NaN, where floats are
    /// allowed. Defaults to `false`.
    canonicalize_nans: bool = false,
    /// Ignored: there are no custom sections. Defaults to `false`.
    generate_custom_sections: bool = false,
    /// The minimum length of an encoded unsigned integer, in bytes, up to five. Defaults to `1`.
    min_uleb_size: u8 = 1,
    /// Ignored: the maximum number of aliases of a component. Defaults to `1000`.
    max_aliases: usize = 1000,
    /// Ignored: the maximum number of components of a component. Defaults to `10`.
    max_components: usize = 10,
    /// Ignored: the maximum number of instances of a component. Defaults to `10`.
    max_instances: usize = 10,
    /// Ignored: the maximum number of modules of a component. Defaults to `10`.
    max_modules: usize = 10,
    /// Ignored: the maximum nesting depth of components. Defaults to `10`.
    max_nesting_depth: usize = 10,
    /// Ignored: the maximum number of values of a component. Defaults to `10`.
    max_values: usize = 10,
    /// The imports to choose from: those of a module in the binary or the text format. Defaults to `None`.
    available_imports: Option<Vec<u8>> = None,
    /// The exports: those of a module in the binary or the text format. Defaults to `None`.
    exports: Option<Vec<u8>> = None,
    /// The first types, and all imports and exports: those of a module in the binary or the text format. Defaults to `None`.
    module_shape: Option<Vec<u8>> = None,
}

thread_local! {
    /// The configuration that this thread used last, and its handle.
    static LAST: RefCell<Option<(Config, Rc<crate::Config>)>> = const { RefCell::new(None) };
}

impl Config {
    /// Reads the JSON object, with `more` as its last members, and the shapes.
    fn read(&self, more: &str) -> crate::Config {
        let mut text = String::from("{");
        self.write_members(&mut text).expect("a string should take all text");
        crate::Config::from_json(format!("{text}{more}}}"))
            .with_available_imports(bytes_of(&self.available_imports))
            .with_exports(bytes_of(&self.exports))
            .with_module_shape(bytes_of(&self.module_shape))
    }

    /// Returns the handle of the configuration, which is made once while the thread uses no other.
    pub(crate) fn kept(&self) -> Rc<crate::Config> {
        LAST.with_borrow_mut(|last| match last {
            Some((config, kept)) if config == self => kept.clone(),
            _ => {
                let kept = Rc::new(self.read("\"fuel\": null"));
                *last = Some((self.clone(), kept.clone()));
                kept
            }
        })
    }

    /// Returns the handle of the configuration with sinks if `is_observed` is set, and a global that counts `fuel` down if there is one.
    /// All of them are exported.
    pub(crate) fn with_additions(&self, is_observed: bool, fuel: Option<u32>) -> crate::Config {
        let fuel = fuel.map_or("null".to_string(), |fuel| fuel.to_string());
        self.read(&format!("\"observe\": {is_observed}, \"fuel\": {fuel}, \"fuel-export\": true"))
    }

    /// Turns features off that lack others that they need.
    pub(crate) fn sanitize(&mut self) {
        if !self.reference_types_enabled {
            self.max_tables = self.max_tables.min(1);
            self.gc_enabled = false;
        }
        self.custom_descriptors_enabled &= self.gc_enabled;
        self.multibyte_array_access_enabled &= self.gc_enabled;
        self.non_nullable_enabled &= self.gc_enabled;
        self.shared_everything_threads_enabled &= self.gc_enabled && self.threads_enabled;
        self.acquire_release_atomics_enabled &= self.threads_enabled;
        self.relaxed_simd_enabled &= self.simd_enabled;
    }
}

const MOST: usize = 1000;

/// Draws the maximum counts, sizes and lengths into `config`.
fn draw_maximums(config: &mut Config, u: &mut Unstructured<'_>) -> Result<()> {
    for maximum in [
        &mut config.max_types,
        &mut config.max_imports,
        &mut config.max_tags,
        &mut config.max_funcs,
        &mut config.max_globals,
        &mut config.max_exports,
        &mut config.max_element_segments,
        &mut config.max_elements,
        &mut config.max_data_segments,
        &mut config.max_instructions,
    ] {
        *maximum = u.int_in_range(0..=MOST)?;
    }
    config.max_memories = u.int_in_range(0..=100)?;
    config.max_tables = u.int_in_range(0..=100)?;
    config.max_memory32_bytes = u.int_in_range(0..=1 << 32)?;
    config.max_memory64_bytes = u.int_in_range(0..=1 << 64)?;
    config.min_uleb_size = u.int_in_range(0..=5)?;
    config.max_table_elements = u.int_in_range(0..=1_000_000)?;
    Ok(())
}

/// Draws the features of version 0.219.1 that are standardised, and rules, into `config`.
fn draw_flags(config: &mut Config, u: &mut Unstructured<'_>) -> Result<()> {
    for flag in [
        &mut config.bulk_memory_enabled,
        &mut config.reference_types_enabled,
        &mut config.simd_enabled,
        &mut config.multi_value_enabled,
        &mut config.saturating_float_to_int_enabled,
        &mut config.sign_extension_ops_enabled,
        &mut config.relaxed_simd_enabled,
        &mut config.exceptions_enabled,
        &mut config.threads_enabled,
        &mut config.tail_call_enabled,
        &mut config.gc_enabled,
        &mut config.table_max_size_required,
        &mut config.disallow_traps,
        &mut config.allow_floats,
    ] {
        *flag = u.arbitrary()?;
    }
    Ok(())
}

fn draw_kinds(u: &mut Unstructured<'_>) -> Result<InstructionKinds> {
    let mut kinds = Vec::new();
    for (_, kind) in InstructionKind::NAMED {
        if u.arbitrary()? {
            kinds.push(kind);
        }
    }
    Ok(InstructionKinds::new(&kinds))
}

impl<'a> Arbitrary<'a> for Config {
    /// Draws maximums, features and kinds of instructions. Minimums are 0, and the other fields have their defaults.
    fn arbitrary(u: &mut Unstructured<'a>) -> Result<Self> {
        let mut config = Config::default();
        draw_maximums(&mut config, u)?;
        draw_flags(&mut config, u)?;
        config.allowed_instructions = draw_kinds(u)?;
        config.sanitize();
        Ok(config)
    }
}
