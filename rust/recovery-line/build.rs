//! Links librecovery_line.a, from the directory that README.md says. Where it is missing only what links fails: a check or the
//! documentation needs none.

use std::env;
use std::path::{Path, PathBuf};

const DIRECTORY: &str = "RECOVERY_LINE_LIB_DIR";
const ARCHIVE: &str = "librecovery_line.a";

fn main() {
    println!("cargo::rerun-if-changed=build.rs");
    println!("cargo::rerun-if-env-changed={DIRECTORY}");
    match library_directory() {
        Ok(directory) => link_from(&directory),
        Err(why) => println!("cargo::error={why}"),
    }
}

fn link_from(directory: &Path) {
    let archive = directory.join(ARCHIVE);
    println!("cargo::rerun-if-changed={}", archive.display());
    if !archive.is_file() {
        println!(
            "cargo::warning={} is missing, and nothing can be linked without it: run `tools/archive` in the \
             root of the repository, or set {DIRECTORY} to the directory that holds {ARCHIVE}",
            archive.display()
        );
    }
    println!("cargo::rustc-link-search=native={}", directory.display());
    println!("cargo::rustc-link-lib=static=recovery_line");
}

fn library_directory() -> Result<PathBuf, String> {
    let Some(named) = env::var_os(DIRECTORY).map(PathBuf::from) else {
        let package = env::var_os("CARGO_MANIFEST_DIR").unwrap_or_default();
        return Ok(Path::new(&package).join("../../target/staticlib"));
    };
    if named.is_absolute() {
        return Ok(named);
    }
    // This program runs in the package's directory. Only the shell's variable says where cargo was called.
    println!("cargo::rerun-if-env-changed=PWD");
    let caller = env::var_os("PWD")
        .map(PathBuf::from)
        .filter(|caller| caller.is_absolute());
    match caller {
        Some(caller) => Ok(caller.join(named)),
        None => Err(format!(
            "{DIRECTORY} is {}, and PWD does not say from where: name an absolute directory",
            named.display()
        )),
    }
}
