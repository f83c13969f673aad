//! Finds the four Rust files. They are compiled as they are, but for the one line of deep.rs that document 02 changes; with the
//! feature `unchanged` that one too.
//!
//! RUST_SRC: the folder that holds composite.rs, deep.rs, exec.rs and gravity_translate.rs, under these names
//! or as src--src--NAME.rs.txt, relative to whoever calls cargo. Without it: ../shared/docs/src, seen from the repository.

use std::path::{Path, PathBuf};
use std::{env, fs};

const FILES: [&str; 4] = ["composite", "deep", "exec", "gravity_translate"];

/// `luma` of three or more channels: the line of deep.rs, and with the weights of document 02, A.1.
const LUMA: &str = "            _ => 0.299 * px[0] + 0.587 * px[1] + 0.114 * px[2],\n";
const READING_WEIGHTS: &str = "            _ => 0.212_656 * px[0] + 0.715_158 * px[1] + 0.072_186 * px[2],\n";

/// A copy of deep.rs with document 02's weights. The line must stand there once: another deep.rs is not compiled.
fn reweighted(deep: &Path, out: &Path) -> PathBuf {
    let text = fs::read_to_string(deep).unwrap();
    assert_eq!(text.matches(LUMA).count(), 1, "{} must have the line {LUMA:?} once", deep.display());
    let copy = out.join("deep.rs");
    fs::write(&copy, text.replace(LUMA, READING_WEIGHTS)).unwrap();
    copy
}

/// A folder as the caller of cargo sees it: cargo runs this program in the package's own folder.
fn of_caller(folder: PathBuf) -> PathBuf {
    if folder.is_absolute() {
        return folder;
    }
    println!("cargo::rerun-if-env-changed=PWD");
    PathBuf::from(env::var_os("PWD").unwrap_or_default()).join(folder)
}

fn main() {
    println!("cargo::rerun-if-env-changed=RUST_SRC");
    let here = PathBuf::from(env::var("CARGO_MANIFEST_DIR").unwrap());
    let folder = match env::var_os("RUST_SRC") {
        Some(folder) => of_caller(folder.into()),
        None => here.join("../../shared/docs/src"),
    };
    let out = PathBuf::from(env::var("OUT_DIR").unwrap());
    let unchanged = env::var_os("CARGO_FEATURE_UNCHANGED").is_some();
    let mut modules = String::new();
    for name in FILES {
        let spellings = [format!("{name}.rs"), format!("src--src--{name}.rs.txt")];
        let path = spellings
            .iter()
            .map(|file| folder.join(file))
            .find(|path| path.exists())
            .unwrap_or_else(|| panic!("{name}.rs is not in {} (RUST_SRC names the folder)", folder.display()))
            .canonicalize()
            .unwrap();
        println!("cargo::rerun-if-changed={}", path.display());
        let path = if name == "deep" && !unchanged { reweighted(&path, &out) } else { path };
        // They are not ours to change: what they do not use here, and clippy's advice on them, is not told.
        modules += &format!("#[allow(dead_code, clippy::all)]\n#[path = {path:?}]\npub mod {name};\n");
    }
    fs::write(out.join("modules.rs"), modules).unwrap();
}
