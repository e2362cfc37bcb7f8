//! Links the proved library, `libcftree.a` in `target/lib` of this repository or in the folder that CFTREE_LIB names.
//!
//! `cargo check` and `cargo doc` need no archive. So where it is missing, or is for another machine, a line says so, and a
//! build stops where it is looked for.

use std::env;
use std::path::{Path, PathBuf};

/// Why nothing can be linked, in a line; none where the archive is there and for the target.
pub fn hindrance(arch: &str, os: &str, archive: &Path) -> Option<String> {
    if (arch, os) != ("x86_64", "linux") {
        return Some(format!(
            "libcftree.a is for x86_64 linux, and this target is {arch} {os}: programs are built and run on x86_64 linux, \
             and here `cargo check` and `cargo doc` work"
        ));
    }
    let missing = format!(
        "{} is missing: run `bin/library`, or name its folder in CFTREE_LIB (`cargo check` and `cargo doc` do without)",
        archive.display()
    );
    (!archive.is_file()).then_some(missing)
}

/// The folder that CFTREE_LIB names, from this package's own if it is not absolute; else the repository's `target/lib`.
fn folder() -> PathBuf {
    let here = PathBuf::from(env::var_os("CARGO_MANIFEST_DIR").expect("cargo sets it"));
    match env::var_os("CFTREE_LIB") {
        Some(folder) => here.join(folder),
        None => here.parent().unwrap_or(&here).join("target/lib"),
    }
}

fn main() {
    let folder = folder();
    let archive = folder.join("libcftree.a");
    let target = |what: &str| env::var(format!("CARGO_CFG_TARGET_{what}")).unwrap_or_default();
    match hindrance(&target("ARCH"), &target("OS"), &archive) {
        Some(why) => println!("cargo:warning={why}"),
        None => println!("cargo:rustc-link-search=native={}", folder.display()),
    }
    println!("cargo:rustc-link-lib=static=cftree");
    println!("cargo:rerun-if-changed={}", archive.display());
    println!("cargo:rerun-if-env-changed=CFTREE_LIB");
}
