//! Copies the kernel source unchanged into the build directory, in the module layout it expects.

use std::path::{Path, PathBuf};
use std::{env, fs};

/// Source files taken as they are, and whether a child module with access to private state is appended.
const SOURCES: [(&str, Option<&str>); 9] = [
    ("task/policy.rs", Some("policy")),
    ("task/thread.rs", None),
    ("task/wait.rs", None),
    ("task/scheduler/queue.rs", Some("queue")),
    ("task/scheduler/algorithms/mod.rs", None),
    ("task/scheduler/algorithms/budget.rs", Some("budget")),
    (
        "task/scheduler/algorithms/arbitration.rs",
        Some("arbitration"),
    ),
    (
        "task/scheduler/algorithms/ready_index.rs",
        Some("ready_index"),
    ),
    ("task/scheduler/state/runtime.rs", Some("runtime")),
];

fn copy_tree(from: &Path, to: &Path) {
    fs::create_dir_all(to).expect("a directory for the stubs");
    for entry in fs::read_dir(from).expect("the stub directory") {
        let path = entry.expect("a stub directory entry").path();
        let target = to.join(path.file_name().expect("a file name"));
        if path.is_dir() {
            copy_tree(&path, &target);
        } else {
            copy_text(&path, &target, "");
        }
    }
}

fn copy_text(from: &Path, to: &Path, appended: &str) {
    let mut text =
        fs::read(from).unwrap_or_else(|error| panic!("cannot read {}: {error}", from.display()));
    text.extend_from_slice(appended.as_bytes());
    fs::write(to, text).unwrap_or_else(|error| panic!("cannot write {}: {error}", to.display()));
}

fn main() {
    let package = PathBuf::from(env::var_os("CARGO_MANIFEST_DIR").expect("the package directory"));
    let out = PathBuf::from(env::var_os("OUT_DIR").expect("the build directory"));
    let unchanged = env::var_os("CARGO_FEATURE_UNCHANGED").is_some();
    let place = match env::var_os("KERNEL_SRC") {
        Some(place) => PathBuf::from(place),
        None => package.join("../../../shared/docs/src"),
    };
    println!("cargo::rerun-if-env-changed=KERNEL_SRC");
    println!("cargo::rerun-if-changed=build.rs");
    println!("cargo::rerun-if-changed=stubs");
    println!("cargo::rerun-if-changed=access");

    let modules = out.join("kernel");
    if modules.exists() {
        fs::remove_dir_all(&modules).expect("an empty build directory");
    }
    copy_tree(&package.join("stubs"), &modules);
    for (file, access) in SOURCES {
        let source = place.join("src").join(file);
        println!("cargo::rerun-if-changed={}", source.display());
        let target = modules.join(file);
        match access {
            Some(name) if !unchanged => {
                let child = format!("{name}_access.rs");
                copy_text(
                    &package.join("access").join(format!("{name}.rs")),
                    &target.with_file_name(&child),
                    "",
                );
                let line = format!("#[path = \"{child}\"] pub(crate) mod access;\n");
                copy_text(&source, &target, &line);
            }
            _ => copy_text(&source, &target, ""),
        }
    }
    let root = format!(
        "#[allow(warnings)]\n#[path = {:?}]\npub(crate) mod task;\n",
        modules.join("task/mod.rs")
    );
    fs::write(out.join("kernel.rs"), root).expect("the module list");
}
