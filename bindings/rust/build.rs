//! Links libsmith.a: from the folder that `SMITH_LIBRARY_DIR` names, or from `dist`, where `./build` puts it.
use std::{env, path::PathBuf, process::exit};

fn main() {
    let built = || PathBuf::from(env::var_os("CARGO_MANIFEST_DIR").unwrap()).join("../../dist");
    let folder = env::var_os("SMITH_LIBRARY_DIR").map_or_else(built, PathBuf::from);
    let library = folder.join("libsmith.a");
    println!("cargo:rerun-if-env-changed=SMITH_LIBRARY_DIR");
    println!("cargo:rerun-if-changed={}", library.display());
    if !library.is_file() {
        eprintln!(
            "{} isn't there. At the top of the checkout, `./build --unproved` makes it in minutes, and `./build` proves it first; \
             or let SMITH_LIBRARY_DIR name its folder.",
            library.display()
        );
        exit(1);
    }
    println!("cargo:rustc-link-search=native={}", folder.display());
    println!("cargo:rustc-link-lib=static=smith");
}
