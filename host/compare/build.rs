//! Links the static libraries of the port that the package calls, from STATICLIB_DIR or the repository's
//! target/staticlib.

use std::env;
use std::path::PathBuf;

fn main() {
    let package = PathBuf::from(env::var_os("CARGO_MANIFEST_DIR").expect("the package directory"));
    let place = match env::var_os("STATICLIB_DIR") {
        Some(place) => PathBuf::from(place),
        None => package.join("../../target/staticlib"),
    };
    let libraries: &[&str] = match env::var("CARGO_PKG_NAME").as_deref() {
        Ok("compare") => &["record_entries", "window_entries"],
        _ => &["row_entries"],
    };
    println!("cargo::rerun-if-env-changed=STATICLIB_DIR");
    println!("cargo::rustc-link-search=native={}", place.display());
    for library in libraries {
        let archive = place.join(format!("lib{library}.a"));
        println!("cargo::rerun-if-changed={}", archive.display());
        println!("cargo::rustc-link-lib=static={library}");
    }
}
