//! Copies the kernel's policies and arbitration unchanged into the build directory, and links the port's static
//! library.

use std::path::{Path, PathBuf};
use std::{env, fs};

fn place(variable: &str, otherwise: PathBuf) -> PathBuf {
    println!("cargo::rerun-if-env-changed={variable}");
    env::var_os(variable).map_or(otherwise, PathBuf::from)
}

/// Copies a source file with one line appended: a child module that sets and shows private state.
fn copy(from: &Path, access: &Path, out: &Path, name: &str) {
    println!("cargo::rerun-if-changed={}", from.display());
    println!("cargo::rerun-if-changed={}", access.display());
    let text = fs::read_to_string(from).expect("a file of the kernel source");
    let line = format!("#[path = \"{name}_access.rs\"] pub(crate) mod access;\n");
    fs::write(out.join(format!("{name}.rs")), text + &line).expect("the copied file");
    fs::copy(access, out.join(format!("{name}_access.rs"))).expect("the access module");
}

fn main() {
    let package = PathBuf::from(env::var_os("CARGO_MANIFEST_DIR").expect("the package directory"));
    let out = PathBuf::from(env::var_os("OUT_DIR").expect("the build directory"));
    let source = place("KERNEL_SRC", package.join("../../../shared/docs/src"));
    let library = place("STATICLIB_DIR", package.join("../../target/staticlib"));
    let task = source.join("src/task");
    let access = package.join("../kernel/access");
    copy(
        &task.join("policy.rs"),
        &access.join("policy.rs"),
        &out,
        "policy",
    );
    let arbitration = task.join("scheduler/algorithms/arbitration.rs");
    copy(
        &arbitration,
        &access.join("arbitration.rs"),
        &out,
        "arbitration",
    );
    let modules = format!(
        "#[allow(warnings)]\n#[path = {:?}]\npub(crate) mod policy;\n\
         #[allow(warnings)]\npub(crate) mod scheduler {{\n    pub(crate) use crate::policy;\n    \
         pub(crate) mod algorithms {{\n        \
         pub(crate) use crate::policy::{{BudgetParameters, FairBackend}};\n        \
         #[path = {:?}]\n        pub(crate) mod arbitration;\n    }}\n}}\n",
        out.join("policy.rs"),
        out.join("arbitration.rs")
    );
    fs::write(out.join("source.rs"), modules).expect("the module list");
    println!(
        "cargo::rerun-if-changed={}",
        library.join("libwindow_entries.a").display()
    );
    println!("cargo::rustc-link-search=native={}", library.display());
    println!("cargo::rustc-link-lib=static=window_entries");
}
