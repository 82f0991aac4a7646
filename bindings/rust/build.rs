//! Finds the library: in the folder that LADDERTICK_LIB names, or else in target/staticlib of the repository that this crate stands in, or else where pkg-config
//! says. Where there is none, `cargo check` and `cargo doc` do their work all the same, and a warning says what a link will lack.

use std::env;
use std::path::{Path, PathBuf};
use std::process::Command;

/// The libraries that a folder may have, the first one first: of `make install` and of `tools/build/library`, and the shared object.
const LIBRARIES: [(&str, &str); 3] =
    [("libladdertick.a", "static=laddertick"), ("libladdertick_c.a", "static=laddertick_c"), ("libladdertick.so", "dylib=laddertick")];

/// Links the library of this folder; tells whether there is one.
fn link(folder: &Path) -> bool {
    let found = LIBRARIES.iter().find(|(file, _)| folder.join(file).exists());
    if let Some((file, library)) = found {
        println!("cargo:rerun-if-changed={}", folder.join(file).display());
        println!("cargo:rustc-link-search=native={}", folder.display());
        println!("cargo:rustc-link-lib={library}");
    }
    found.is_some()
}

/// The folder that pkg-config names, if it is there and knows the library.
fn told() -> Option<PathBuf> {
    let program = env::var_os("PKG_CONFIG").unwrap_or_else(|| "pkg-config".into());
    let said = Command::new(program).args(["--variable=libdir", "laddertick"]).output().ok()?;
    let folder = String::from_utf8(said.stdout).ok()?;
    (said.status.success() && !folder.trim().is_empty()).then(|| PathBuf::from(folder.trim()))
}

fn main() {
    for name in ["LADDERTICK_LIB", "PKG_CONFIG", "PKG_CONFIG_PATH"] {
        println!("cargo:rerun-if-env-changed={name}");
    }
    println!("cargo:rerun-if-changed=build.rs");
    let repository = Path::new(&env::var_os("CARGO_MANIFEST_DIR").unwrap()).join("../../target/staticlib");
    let linked = match env::var_os("LADDERTICK_LIB") {
        Some(folder) => link(Path::new(&folder)),
        None => link(&repository) || told().map_or(false, |folder| link(&folder)),
    };
    if !linked {
        println!(
            "cargo:warning=no libladdertick is found: install it (make install), or set LADDERTICK_LIB to its folder; in the repository run ./laddertick build"
        );
    }
}
