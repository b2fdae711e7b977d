//! The published files are the ones that were handed over.

use std::process::Command;

#[test]
fn published_files_are_unchanged() {
    let status = Command::new("sha256sum")
        .args(["--check", "--strict", "--quiet", "SHA256SUMS"])
        .current_dir(env!("CARGO_MANIFEST_DIR"))
        .status()
        .expect("sha256sum runs");
    assert!(status.success());
}
