//! Links libserialpost.a: from the directory that SERIALPOST_LIB_DIR names, or from where `hosts/library` puts the one for
//! the target that this crate is built for.

use std::env;
use std::path::{Path, PathBuf};
use std::process::exit;

fn main() {
    println!("cargo:rerun-if-env-changed=SERIALPOST_LIB_DIR");
    let target = env::var("TARGET").expect("cargo names the target");
    let folder = format!("../../target/lib/{target}");
    let built_here = || Path::new(env!("CARGO_MANIFEST_DIR")).join(folder);
    let directory = env::var_os("SERIALPOST_LIB_DIR").map_or_else(built_here, PathBuf::from);
    let archive = directory.join("libserialpost.a");
    println!("cargo:rerun-if-changed={}", archive.display());
    if !archive.is_file() {
        eprintln!("{} is not there.", archive.display());
        eprintln!("Run `hosts/library`, or set SERIALPOST_LIB_DIR to the directory that has it.");
        exit(1);
    }
    println!("cargo:rustc-link-search=native={}", directory.display());
    println!("cargo:rustc-link-lib=static=serialpost");
}
