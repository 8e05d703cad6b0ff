//! Modules by the names of the crate `wasm-smith`.
use arbitrary::{Arbitrary, Error, Unstructured};
use smith_drop_in::{Config, InstructionKind, InstructionKinds, Module};
use std::thread;

/// Returns bytes that look random.
fn input(seed: u32) -> Vec<u8> {
    let mut state = seed.wrapping_mul(0x9e37_79b9) | 1;
    let mut next = || {
        state ^= state << 13;
        state ^= state >> 17;
        state ^= state << 5;
        state as u8
    };
    (0..600).map(|_| next()).collect()
}

fn module(config: Config, seed: u32) -> arbitrary::Result<Module> {
    Module::new(config, &mut Unstructured::new(&input(seed)))
}

#[test]
fn a_module_takes_all_bytes_that_are_left() {
    let input = input(1);
    let mut u = Unstructured::new(&input);
    u.bytes(100).unwrap();
    let module = Module::new(Config::default(), &mut u).unwrap();
    assert!(u.is_empty());
    let other = Module::arbitrary_take_rest(Unstructured::new(&input[100..])).unwrap();
    assert_eq!(module.to_bytes(), other.to_bytes());
}

#[test]
fn an_unmet_minimum_is_an_incorrect_format() {
    let config = Config { min_funcs: 1, max_types: 0, ..Config::default() };
    assert!(matches!(module(config, 2), Err(Error::IncorrectFormat)));
}

#[test]
#[should_panic(expected = "min")]
fn a_minimum_above_its_maximum_panics() {
    let _ = module(Config { min_types: 9, max_types: 3, ..Config::default() }, 3);
}

#[test]
fn a_shape_determines_the_exports() {
    let exporting = |shape: &str| {
        let config = Config { exports: Some(shape.into()), min_exports: 0, ..Config::default() };
        module(config, 4).unwrap().to_bytes()
    };
    let module = exporting("(module (func (export \"run\")))");
    assert!(module.windows(6).any(|bytes| bytes == b"\x01\x03run\x00"));
    assert_eq!(exporting(""), exporting("(module)"));
}

#[test]
#[should_panic(expected = "shape of exports")]
fn a_shape_that_is_no_module_panics() {
    let _ = module(Config { exports: Some("(modul)".into()), ..Config::default() }, 4);
}

#[test]
fn the_counter_of_fuel_is_the_last_global_and_export() {
    let mut grown = 0;
    for seed in 0..50 {
        let config = Config { min_funcs: 1, min_types: 1, min_globals: 2, ..Config::default() };
        let mut module = match module(config, seed) {
            Ok(module) => module,
            Err(error) => panic!("seed {seed}: {error}"),
        };
        let before = module.to_bytes();
        let index = module.ensure_termination(1000).unwrap();
        assert!((2..=100).contains(&index));
        grown += usize::from(module.to_bytes().len() > before.len());
    }
    assert_eq!(grown, 50);
}

fn has_name(module: &Module, name: &str) -> bool {
    module.to_bytes().windows(name.len()).any(|bytes| bytes == name.as_bytes())
}

#[test]
fn the_sinks_are_the_last_globals_and_exports() {
    for seed in 0..50 {
        let config = Config { min_funcs: 1, min_types: 1, min_globals: 2, max_exports: 0, ..Config::default() };
        let mut module = module(config, seed).unwrap();
        let first = module.observe().unwrap();
        assert!((2..=100).contains(&first));
        let observed = module.to_bytes();
        assert_eq!(module.observe().unwrap(), first);
        assert_eq!(module.to_bytes(), observed);
        assert!(["\u{8}sink_i32\u{3}", "\u{8}sink_i64\u{3}", "\nsink_i64_2\u{3}"].iter().all(|name| has_name(&module, name)));
        assert!(!has_name(&module, "\u{4}fuel\u{3}"));
    }
}

#[test]
fn a_counter_of_fuel_follows_the_sinks() {
    for seed in 0..50 {
        let config = Config { min_funcs: 1, min_types: 1, ..Config::default() };
        let mut module = module(config, seed).unwrap();
        let alone = module.ensure_termination(1000).unwrap();
        assert_eq!(module.observe().unwrap(), alone);
        let observed = module.to_bytes();
        assert_eq!(module.ensure_termination(1000).unwrap(), alone + 3);
        assert_eq!(module.to_bytes(), observed);
    }
}

#[test]
fn raw_bodies_have_no_counter_and_no_sinks() {
    let config = Config { min_funcs: 1, min_types: 1, allow_invalid_funcs: true, max_imports: 0, ..Config::default() };
    let refused = (0..200).filter_map(|seed| {
        let mut module = module(config.clone(), seed).ok()?;
        let before = module.to_bytes();
        let refused = module.ensure_termination(9).err()?;
        assert_eq!(module.observe().err()?.status, refused.status);
        assert_eq!(module.to_bytes(), before);
        Some(refused.status)
    });
    assert_eq!(refused.max(), Some(5));
}

#[test]
fn a_drawn_configuration_makes_modules_in_several_threads() {
    let threads = (0..4).map(|part| {
        thread::spawn(move || {
            (0..100).filter(|seed| {
                let input = input(part * 100 + seed);
                let mut u = Unstructured::new(&input);
                let config = Config::arbitrary(&mut u).unwrap();
                Module::new(config, &mut u).is_ok()
            })
            .count()
        })
    });
    let made: Vec<usize> = threads.collect::<Vec<_>>().into_iter().map(|thread| thread.join().unwrap()).collect();
    assert_eq!(made, [100; 4]);
}

#[test]
fn a_configuration_has_features_off_that_lack_others() {
    let module = module(Config { reference_types_enabled: false, max_tables: 4, ..Config::default() }, 5).unwrap();
    assert!(!module.config().gc_enabled);
    assert_eq!(module.config().max_tables, 1);
}

#[test]
fn kinds_have_names_and_include_others() {
    let kinds: InstructionKinds = "Numeric,vector_non_float".parse().unwrap();
    assert_eq!(kinds, InstructionKinds::new(&[InstructionKind::Numeric, InstructionKind::VectorInt]));
    assert!(kinds.contains(InstructionKind::NumericInt) && !kinds.contains(InstructionKind::Vector));
    assert!(!kinds.without_floats().contains(InstructionKind::Numeric));
    assert!("numerics".parse::<InstructionKind>().is_err());
}
