//! Links the static library `contact_api`: from the folder in `SARDINEROD_LIB_DIR`, or else from `target/staticlib` of the
//! repository, where the script `bindings/library` puts it.

use std::env;
use std::path::{Path, PathBuf};
use std::process::{Command, exit};

const ARCHIVE: &str = "libcontact_api.a";

fn main() {
    println!("cargo::rerun-if-env-changed=SARDINEROD_LIB_DIR");
    println!("cargo::rerun-if-changed=build.rs");
    let folder = match env::var_os("SARDINEROD_LIB_DIR") {
        Some(folder) => given(PathBuf::from(folder)),
        None => built(&repository()),
    };
    println!("cargo::rerun-if-changed={}", folder.join(ARCHIVE).display());
    println!("cargo::rustc-link-search=native={}", folder.display());
    println!("cargo::rustc-link-lib=static=contact_api");
}

/// The folder that holds `bindings/rust`.
fn repository() -> PathBuf {
    Path::new(env!("CARGO_MANIFEST_DIR")).join("../..")
}

/// A folder that the caller names has to hold the archive. One that is not absolute is taken from this crate's folder.
fn given(folder: PathBuf) -> PathBuf {
    let folder = Path::new(env!("CARGO_MANIFEST_DIR")).join(folder);
    if !folder.join(ARCHIVE).is_file() {
        fail(&format!(
            "there is no {ARCHIVE} in {}, the folder of SARDINEROD_LIB_DIR",
            folder.display()
        ));
    }
    folder
}

/// The repository's own archive, built where it is missing.
fn built(root: &Path) -> PathBuf {
    let folder = root.join("target/staticlib");
    if !folder.join(ARCHIVE).is_file() {
        build(root);
    }
    if !folder.join(ARCHIVE).is_file() {
        fail(&format!(
            "bindings/library left no {ARCHIVE} in {}",
            folder.display()
        ));
    }
    folder
}

fn build(root: &Path) {
    let status = Command::new(root.join("bindings/library")).status();
    match status {
        Ok(status) if status.success() => {}
        Ok(status) => fail(&format!(
            "bindings/library of {} failed: {status}. It needs `rt` of the Rattle kit; or name the folder of {ARCHIVE} in SARDINEROD_LIB_DIR",
            root.display()
        )),
        Err(error) => fail(&format!("bindings/library could not be run: {error}")),
    }
}

fn fail(why: &str) -> ! {
    println!("cargo::error={why}");
    exit(1);
}
