//! Compiles pixman.c and magick.c where Debian's libpixman-1-dev and libmagickcore-6.q16hdri-dev are installed; the
//! benchmark goes without what is not there, and says so.

use std::env;
use std::path::PathBuf;
use std::process::Command;

/// What a program writes; none where it fails or is not there.
fn says(program: &str, words: &[&str]) -> Option<String> {
    let output = Command::new(program).args(words).output().ok()?;
    output.status.success().then(|| String::from_utf8_lossy(&output.stdout).trim().to_string())
}

/// A compiler's tool; that it fails is told.
fn make(program: &str, words: &[&str]) {
    let output = Command::new(program).args(words).output().unwrap_or_else(|error| panic!("{program}: {error}"));
    assert!(output.status.success(), "{program} {}:\n{}", words.join(" "), String::from_utf8_lossy(&output.stderr));
}

/// Compiles src/NAME.c against a package and links both. Answers the package's version, if it is there.
fn linked(name: &str, package: &str) -> Option<String> {
    println!("cargo::rustc-check-cfg=cfg({name})");
    println!("cargo::rerun-if-changed=src/{name}.c");
    let asked = |what: &str| says("pkg-config", &[what, package]);
    let (version, flags, libraries) = (asked("--modversion")?, asked("--cflags")?, asked("--libs-only-l")?);
    let out = PathBuf::from(env::var("OUT_DIR").unwrap());
    let object = out.join(format!("{name}.o")).display().to_string();
    let archive = out.join(format!("libbench_{name}.a")).display().to_string();
    let source = format!("src/{name}.c");
    // Warnings are errors here, but not in the package's headers.
    let flags = format!(" {flags}").replace(" -I", " -isystem");
    let mut words = vec!["-std=gnu11", "-O2", "-Wall", "-Wextra", "-Werror"];
    words.extend(flags.split_ascii_whitespace());
    words.extend(["-c", &source, "-o", &object]);
    make("cc", &words);
    make("ar", &["rcs", &archive, &object]);
    println!("cargo::rustc-cfg={name}");
    println!("cargo::rustc-link-search=native={}", out.display());
    println!("cargo::rustc-link-lib=static=bench_{name}");
    for library in libraries.split_ascii_whitespace() {
        println!("cargo::rustc-link-lib={}", library.trim_start_matches("-l"));
    }
    Some(version)
}

fn main() {
    let pixman = linked("pixman", "pixman-1");
    let magick = linked("magick", "MagickCore-6.Q16HDRI").map(|version| format!("{version} (Q16 HDRI)"));
    println!("cargo::rustc-env=PIXMAN_VERSION={}", pixman.unwrap_or_default());
    println!("cargo::rustc-env=MAGICK_VERSION={}", magick.unwrap_or_default());
}
