//! Finds the library to link. The first of these that there is decides:
//!
//! 1. `PAGESHARE_LIB_DIR`, a folder with `libpageshare.a`, which is linked into the program, or with `libpageshare.so`;
//! 2. `pkg-config`, which finds an installed library. The shared one is linked, and with `PAGESHARE_STATIC=1` the static one;
//! 3. `out` at the top of the library's own repository, where `make embed` leaves it.
use std::env;
use std::path::{Path, PathBuf};
use std::process::{exit, Command};

fn main() {
    for name in [
        "PAGESHARE_LIB_DIR",
        "PAGESHARE_LIB",
        "PAGESHARE_STATIC",
        "PKG_CONFIG_PATH",
        "DOCS_RS",
    ] {
        println!("cargo:rerun-if-env-changed={name}");
    }
    // Documents alone are made on machines that have no library.
    if env::var_os("DOCS_RS").is_some() {
        return;
    }
    // (PAGESHARE_LIB is what PAGESHARE_LIB_DIR was called in 0.1.0)
    let named = env::var_os("PAGESHARE_LIB_DIR").or_else(|| env::var_os("PAGESHARE_LIB"));
    if let Some(folder) = named {
        link_in(Path::new(&folder));
    } else if let Some(folder) = packaged() {
        let is_static = env::var_os("PAGESHARE_STATIC").is_some_and(|word| word != "0");
        link(&folder, if is_static { "static" } else { "dylib" });
    } else {
        link_in(&of_repository());
    }
}

/// Links the library in this folder: the static one if it is there.
fn link_in(folder: &Path) {
    if folder.join("libpageshare.a").is_file() {
        link(folder, "static");
    } else if folder.join("libpageshare.so").is_file() {
        link(folder, "dylib");
    } else {
        eprintln!(
            "There is no libpageshare in {}. Install pageshare so that `pkg-config --libs pageshare` finds it, or name the folder of \
             libpageshare.a in PAGESHARE_LIB_DIR.",
            folder.display()
        );
        exit(1);
    }
}

fn link(folder: &Path, kind: &str) {
    let file = if kind == "static" {
        "libpageshare.a"
    } else {
        "libpageshare.so"
    };
    println!("cargo:rerun-if-changed={}", folder.join(file).display());
    println!("cargo:rustc-link-search=native={}", folder.display());
    println!("cargo:rustc-link-lib={kind}=pageshare");
}

/// The folder of the installed library, if `pkg-config` knows one.
fn packaged() -> Option<PathBuf> {
    let program = env::var_os("PKG_CONFIG").unwrap_or_else(|| "pkg-config".into());
    let said = Command::new(program)
        .args(["--variable=libdir", "pageshare"])
        .output()
        .ok()?;
    let folder = String::from_utf8(said.stdout).ok()?;
    (said.status.success() && !folder.trim().is_empty()).then(|| PathBuf::from(folder.trim()))
}

fn of_repository() -> PathBuf {
    let package = env::var_os("CARGO_MANIFEST_DIR")
        .map(PathBuf::from)
        .unwrap_or_default();
    package.join("../../out")
}
