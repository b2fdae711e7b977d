//! Links the library's archive: the file that `SANDZGULI_ARCHIVE` names, whatever its name, or the one that
//! `tools/build` makes in this repository. A relative path counts from this folder.

use std::path::{Path, PathBuf};
use std::{env, fs, process};

const VARIABLE: &str = "SANDZGULI_ARCHIVE";
const DEFAULT: &str = "../../target/staticlib/libsandzguli.a";

/// The linker finds an archive by its name, so it gets a copy that has it.
fn copy(archive: &Path, folder: &Path) -> std::io::Result<()> {
    fs::write(folder.join("libsandzguli.a"), fs::read(archive)?)
}

fn main() {
    println!("cargo:rerun-if-env-changed={VARIABLE}");
    let archive = env::var_os(VARIABLE).unwrap_or_else(|| DEFAULT.into());
    let archive = env::current_dir().unwrap_or_default().join(archive);
    println!("cargo:rerun-if-changed={}", archive.display());
    let folder = env::var_os("OUT_DIR")
        .map(PathBuf::from)
        .unwrap_or_default();
    if let Err(error) = copy(&archive, &folder) {
        let path = archive.display();
        eprintln!("{VARIABLE} is to be the path of the library: {path} cannot be read ({error}).");
        process::exit(1);
    }
    println!("cargo:rustc-link-search=native={}", folder.display());
    println!("cargo:rustc-link-lib=static=sandzguli");
}
