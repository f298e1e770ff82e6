//! Names the kernel's ready index, unchanged, as a module of this program, and links the port's static library.

use std::path::PathBuf;
use std::{env, fs};

fn place(variable: &str, otherwise: PathBuf) -> PathBuf {
    println!("cargo::rerun-if-env-changed={variable}");
    env::var_os(variable).map_or(otherwise, PathBuf::from)
}

fn main() {
    let package = PathBuf::from(env::var_os("CARGO_MANIFEST_DIR").expect("the package directory"));
    let out = PathBuf::from(env::var_os("OUT_DIR").expect("the build directory"));
    let source = place("KERNEL_SRC", package.join("../../../shared/docs/src"));
    let library = place("STATICLIB_DIR", package.join("../../target/staticlib"));
    let index = source.join("src/task/scheduler/algorithms/ready_index.rs");
    let index = index.canonicalize().expect("the kernel's ready index");
    println!("cargo::rerun-if-changed={}", index.display());
    let module = format!("#[allow(warnings)]\n#[path = {index:?}]\nmod ready_index;\n");
    fs::write(out.join("source.rs"), module).expect("the module list");
    let archive = library.join("librow_entries.a");
    println!("cargo::rerun-if-changed={}", archive.display());
    println!("cargo::rustc-link-search=native={}", library.display());
    println!("cargo::rustc-link-lib=static=row_entries");
}
