//! Stands for the crate `arbitrary` where `smith` is built by itself, so that its optional dependency is resolved without a network.
compile_error!(
    "smith with the feature `arbitrary` is built by itself: name the real crate, as in \
     `cargo build --features arbitrary --config 'patch.crates-io.arbitrary.path=\"/usr/share/cargo/registry/arbitrary-1.1.3\"'`, \
     or build a package that depends on smith"
);
