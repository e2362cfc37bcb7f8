//! What the build script says where the archive is missing or made for another machine.

#[allow(dead_code)]
#[path = "../build.rs"]
mod build;

use std::path::Path;

#[test]
fn says_what_to_do() {
    let there = Path::new(env!("CARGO_MANIFEST_DIR")).join("build.rs");
    assert_eq!(build::hindrance("x86_64", "linux", &there), None);
    let missing = build::hindrance("x86_64", "linux", Path::new("/none/libcftree.a"));
    assert_eq!(
        missing.as_deref(),
        Some(
            "/none/libcftree.a is missing: run `bin/library`, or name its folder in CFTREE_LIB \
             (`cargo check` and `cargo doc` do without)"
        )
    );
    for (arch, os) in [("aarch64", "linux"), ("x86_64", "windows")] {
        let said = format!(
            "libcftree.a is for x86_64 linux, and this target is {arch} {os}: programs are built and run on \
             x86_64 linux, and here `cargo check` and `cargo doc` work"
        );
        assert_eq!(build::hindrance(arch, os, &there), Some(said));
    }
}
