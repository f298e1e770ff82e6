//! Links the static library of the port's crate that the package is named after, from STATICLIB_DIR or the
//! repository's target/staticlib.

use std::env;
use std::path::PathBuf;

fn main() {
    let package = PathBuf::from(env::var_os("CARGO_MANIFEST_DIR").expect("the package directory"));
    let place = match env::var_os("STATICLIB_DIR") {
        Some(place) => PathBuf::from(place),
        None => package.join("../../target/staticlib"),
    };
    let name = env::var("CARGO_PKG_NAME").expect("the package's name");
    let archive = place.join(format!("lib{name}.a"));
    println!("cargo::rerun-if-env-changed=STATICLIB_DIR");
    println!("cargo::rerun-if-changed={}", archive.display());
    println!("cargo::rustc-link-search=native={}", place.display());
    println!("cargo::rustc-link-lib=static={name}");
}
