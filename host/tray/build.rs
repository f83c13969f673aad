//! Links libtray.a. TRAY_LIB names the folder that has it, relative to whoever calls cargo; without it target/staticlib of
//! the repository is taken, where tools/library puts it.

use std::env;
use std::path::PathBuf;

/// A folder as the caller of cargo sees it: cargo runs this program in the package's own folder.
fn of_caller(folder: PathBuf) -> PathBuf {
    if folder.is_absolute() {
        return folder;
    }
    println!("cargo:rerun-if-env-changed=PWD");
    PathBuf::from(env::var_os("PWD").unwrap_or_default()).join(folder)
}

fn main() {
    println!("cargo:rerun-if-env-changed=TRAY_LIB");
    let here = PathBuf::from(env::var("CARGO_MANIFEST_DIR").unwrap());
    let folder = match env::var_os("TRAY_LIB") {
        Some(folder) => of_caller(folder.into()),
        None => here.join("../../target/staticlib"),
    };
    let archive = folder.join("libtray.a");
    if !archive.exists() {
        eprintln!(
            "{} is not there: run tools/library in the repository, or set TRAY_LIB to the folder that has it",
            archive.display()
        );
        std::process::exit(1);
    }
    let folder = folder.canonicalize().unwrap();
    println!("cargo:rerun-if-changed={}", archive.display());
    println!("cargo:rustc-link-search=native={}", folder.display());
    println!("cargo:rustc-link-lib=static=tray");
    println!("cargo:rustc-link-lib=m");
}
