// SPDX-License-Identifier: MIT
//! Finds the archive: in the folder SEGCACHE_LIB, or where the package or the repository has it. With the feature `wide`
//! it is libsegcachewide.a, and else libsegcache.a. Without the archive `cargo doc` and `cargo check` work, and what links
//! says what makes it.
use std::env;
use std::path::PathBuf;

fn main() {
    println!("cargo:rerun-if-env-changed=SEGCACHE_LIB");
    let (name, made, calls) = match env::var_os("CARGO_FEATURE_WIDE") {
        None => ("segcache", "../c/out", "bindings/archive && make -C bindings/c"),
        Some(_) => {
            ("segcachewide", "../c/out/wide", "tools/wide bindings/archive && make -C bindings/c WIDE=1")
        }
    };
    let here = PathBuf::from(env::var_os("CARGO_MANIFEST_DIR").expect("cargo sets this"));
    let folders: Vec<PathBuf> = match env::var_os("SEGCACHE_LIB") {
        Some(folder) => vec![folder.into()],
        None => vec![here.join("../lib"), here.join(made)],
    };
    let archive = format!("lib{name}.a");
    println!("cargo:rustc-link-lib=static={name}");
    for folder in &folders {
        // Of a file that isn't there, this says that it may come.
        println!("cargo:rerun-if-changed={}", folder.join(&archive).display());
    }
    match folders.iter().find(|folder| folder.join(&archive).exists()) {
        Some(folder) => println!("cargo:rustc-link-search=native={}", folder.display()),
        None => println!(
            "cargo:warning=no {archive} in {folders:?}, so only `cargo doc` and `cargo check` work. In the repository \
             `{calls}` makes it, a package has it in lib, and SEGCACHE_LIB names another folder"
        ),
    }
}
