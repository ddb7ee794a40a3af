//! Prepares the sides of the comparison: derives the Rust's envelope from its
//! sources, compiles the C functions of the header, and links the static
//! libraries made from the Rattle.
//!
//! `WORFELLI_RUST` names the folder of the Rust's sources, and `WORFELLI_LIB` one
//! folder of both libraries, which are else each where `rt lib` leaves it; a
//! relative name is read from this package's folder (the crate worfelli reads the
//! second one too, from its own). `CC` and `AR` name the C compiler and the
//! archiver, which are else `cc` and `ar`. Whatever stands in the way is said in
//! one line.

use std::env;
use std::path::{Path, PathBuf};

#[path = "build/c.rs"]
mod c;
#[path = "build/derive.rs"]
mod derive;
#[path = "build/table.rs"]
mod table;

/// The libraries: `lib` and `.a` around each name. The second is linked by the
/// crate worfelli.
const LIBRARIES: [&str; 2] = ["exports", "worfelli"];

fn main() {
    // An error told to cargo stops the build by itself; a failing exit status
    // would only print all of this script's output around that one line.
    if let Err(message) = prepare() {
        println!("cargo::error={message}");
    }
}

fn prepare() -> Result<(), String> {
    // The script's own files are watched one by one, since naming any file
    // ends cargo's habit of watching the whole package.
    for own in [
        "build.rs",
        "build/c.rs",
        "build/derive.rs",
        "build/table.rs",
    ] {
        println!("cargo::rerun-if-changed={own}");
    }
    let out = PathBuf::from(env::var_os("OUT_DIR").ok_or("OUT_DIR is not set")?);
    derive::derive(&folder("WORFELLI_RUST", "../../shared/docs/src")?, &out)?;
    c::compile(&out)?;
    for name in LIBRARIES {
        let folder = folder("WORFELLI_LIB", &format!("../crates/{name}/out"))?;
        find(name, &folder)?;
        println!("cargo::rustc-link-search=native={}", folder.display());
    }
    println!("cargo::rustc-link-lib=static={}", LIBRARIES[0]);
    Ok(())
}

/// The folder that `variable` names, or else `default`, as an absolute path.
fn folder(variable: &str, default: &str) -> Result<PathBuf, String> {
    println!("cargo::rerun-if-env-changed={variable}");
    let named = env::var_os(variable).unwrap_or_else(|| default.into());
    let package = env::var_os("CARGO_MANIFEST_DIR").ok_or("CARGO_MANIFEST_DIR is not set")?;
    Ok(Path::new(&package).join(named))
}

/// Sees that the library is in `folder`.
fn find(name: &str, folder: &Path) -> Result<(), String> {
    let file = folder.join(format!("lib{name}.a"));
    println!("cargo::rerun-if-changed={}", file.display());
    if file.is_file() {
        return Ok(());
    }
    Err(format!(
        "no {}: build it first (rt lib --cpu x86-64 in crates/{name}), or name its folder in WORFELLI_LIB",
        file.display()
    ))
}
