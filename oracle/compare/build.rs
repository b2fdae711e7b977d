//! Links the archives that features ask for: `library` the library, `before` the library of an earlier landing under
//! other names, `text_test` the test of texts by itself. Each is the file that its variable names, or the one that
//! `tools/build` makes in this repository.

use std::path::{self, Path, PathBuf};
use std::process::{self, Command};
use std::{env, fs};

struct Archive {
    feature: &'static str,
    variable: &'static str,
    default: Option<&'static str>,
    /// The name that the linker looks for.
    name: &'static str,
}

const ARCHIVES: [Archive; 3] = [
    Archive {
        feature: "CARGO_FEATURE_LIBRARY",
        variable: "SANDZGULI_ARCHIVE",
        default: Some("../../target/staticlib/libsandzguli.a"),
        name: "sandzguli",
    },
    Archive {
        feature: "CARGO_FEATURE_BEFORE",
        variable: "SANDZGULI_BEFORE",
        default: None,
        name: "before",
    },
    Archive {
        feature: "CARGO_FEATURE_TEXT_TEST",
        variable: "SANDZGULI_TEXT_TEST",
        default: Some("../../target/staticlib/libtext_test.a"),
        name: "text_test",
    },
];

/// The calls that the archive `before` has under the name `before_CALL`.
const CALLS: [&str; 5] = ["check", "joint_label", "copy", "canonical", "split"];

fn main() {
    for archive in ARCHIVES {
        println!("cargo:rerun-if-env-changed={}", archive.variable);
        if env::var_os(archive.feature).is_some() {
            link(&archive);
        }
    }
}

/// Links a copy under the name that the linker looks for, whatever the archive's own name is.
fn link(archive: &Archive) {
    let named = env::var_os(archive.variable).map(PathBuf::from);
    let Some(file) = named.or(archive.default.map(PathBuf::from)) else {
        stop(&format!("{} must name an archive.", archive.variable));
    };
    let file = path::absolute(&file).unwrap_or(file);
    println!("cargo:rerun-if-changed={}", file.display());
    let folder = PathBuf::from(env::var_os("OUT_DIR").expect("cargo names a folder"));
    let copy = folder.join(format!("lib{}.a", archive.name));
    if let Err(error) = fs::copy(&file, &copy) {
        let variable = archive.variable;
        stop(&format!(
            "{variable} must name an archive, but {file:?} cannot be read: {error}."
        ));
    }
    if archive.name == "before" {
        rename_calls(&copy);
    }
    println!("cargo:rustc-link-search=native={}", folder.display());
    println!("cargo:rustc-link-lib=static={}", archive.name);
}

/// Gives the calls their other names, and hides what else the archive has.
fn rename_calls(archive: &Path) {
    let kept = CALLS.map(|call| format!("--keep-global-symbol=sandzguli_{call}"));
    let renamed = CALLS.map(|call| format!("--redefine-sym=sandzguli_{call}=before_{call}"));
    for arguments in [kept, renamed] {
        let status = Command::new("objcopy")
            .args(arguments)
            .arg(archive)
            .status();
        if !status.is_ok_and(|status| status.success()) {
            stop("objcopy cannot rename the calls.");
        }
    }
}

fn stop(words: &str) -> ! {
    eprintln!("{words}");
    process::exit(1);
}
