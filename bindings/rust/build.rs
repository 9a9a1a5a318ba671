//! Names the library to the linker: the archive `libflatpq.a` in the first of these that there is,
//!
//! - the folder that `FLATPQ_LIB_DIR` names;
//! - `lib/` of this crate, where a package has it;
//! - `out/` at the top of the sources, where they build it;
//! - the folder that `pkg-config` knows of `flatpq`.
//!
//! Where `FLATPQ_DYNAMIC` is 1 it names the shared library that `pkg-config` knows.
use std::env;
use std::path::{Path, PathBuf};
use std::process::Command;

fn main() {
    for name in ["FLATPQ_LIB_DIR", "FLATPQ_DYNAMIC", "PKG_CONFIG_PATH"] {
        println!("cargo:rerun-if-env-changed={name}");
    }
    let kind = match env::var_os("FLATPQ_DYNAMIC") {
        Some(is_so) if is_so == "1" => "dylib",
        _ => "static",
    };
    let folder = match kind {
        "dylib" => {
            installed().expect("FLATPQ_DYNAMIC needs a flatpq of this version in pkg-config")
        }
        _ => archive(),
    };
    println!("cargo:rustc-link-search=native={}", folder.display());
    println!("cargo:rustc-link-lib={kind}=flatpq");
}

/// The folder of the archive.
fn archive() -> PathBuf {
    let own = env::var_os("CARGO_MANIFEST_DIR").expect("cargo sets CARGO_MANIFEST_DIR");
    let own = Path::new(&own);
    let has_archive = |folder: &PathBuf| folder.join("libflatpq.a").is_file();
    let named = env::var_os("FLATPQ_LIB_DIR").map(PathBuf::from);
    let folder = named.unwrap_or_else(|| {
        let beside = [own.join("lib"), own.join("../../out")];
        let there = beside.into_iter().find(has_archive);
        there
            .or_else(installed)
            .unwrap_or_else(|| own.join("../../out"))
    });
    let archive = folder.join("libflatpq.a");
    println!("cargo:rerun-if-changed={}", archive.display());
    if !archive.is_file() {
        println!(
            "cargo:warning={} is not there: install flatpq, or set FLATPQ_LIB_DIR",
            archive.display()
        );
    }
    folder
}

/// What `pkg-config` has of `flatpq` by this word, if it is there and has it.
fn asked(word: &str) -> Option<String> {
    let program = env::var_os("PKG_CONFIG").unwrap_or_else(|| "pkg-config".into());
    let output = Command::new(program).args([word, "flatpq"]).output().ok()?;
    let text = String::from_utf8(output.stdout).ok()?;
    output.status.success().then(|| text.trim().to_string())
}

/// The folder of an installed library whose major and minor numbers are this crate's.
fn installed() -> Option<PathBuf> {
    let number = |name| env::var(name).expect("cargo sets the version of the crate");
    let own = [
        number("CARGO_PKG_VERSION_MAJOR"),
        number("CARGO_PKG_VERSION_MINOR"),
    ];
    let version = asked("--modversion")?;
    let is_own = version.split('.').take(2).eq(own);
    // That of the machine which builds is none of another one.
    if !is_own || env::var("HOST") != env::var("TARGET") {
        return None;
    }
    // A space is escaped there.
    asked("--variable=libdir").map(|folder| folder.replace('\\', "").into())
}
