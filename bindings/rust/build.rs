//! Links `libhello.a` and `libclass_bench.a` from the folder in HELLO_LIB, or else from
//! `../../target/staticlib`, where `tools/library` puts them.

use std::env;
use std::path::PathBuf;
use std::process::exit;

fn main() {
    println!("cargo:rerun-if-env-changed=HELLO_LIB");
    let folder = env::var_os("HELLO_LIB").unwrap_or_else(|| "../../target/staticlib".into());
    let folder = PathBuf::from(folder);
    for name in ["hello", "class_bench"] {
        let archive = folder.join(format!("lib{name}.a"));
        println!("cargo:rerun-if-changed={}", archive.display());
        let archive = archive.canonicalize().unwrap_or_else(|error| {
            eprintln!(
                "{}: {error}: make it with tools/library, or name its folder in HELLO_LIB",
                archive.display()
            );
            exit(1)
        });
        let folder = archive.parent().expect("a file is in a folder");
        println!("cargo:rustc-link-search=native={}", folder.display());
        println!("cargo:rustc-link-lib=static={name}");
    }
}
