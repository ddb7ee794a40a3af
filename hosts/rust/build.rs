//! Links the library, `libworfelli.a`, from the folder that `WORFELLI_LIB` names; a relative name is read
//! from this package's folder.

use std::env;
use std::path::PathBuf;

/// Where `rt lib` leaves the library.
const DEFAULT: &str = "../../crates/worfelli/out";

fn main() {
    println!("cargo::rerun-if-changed=build.rs");
    println!("cargo::rerun-if-env-changed=WORFELLI_LIB");
    let package = env::var_os("CARGO_MANIFEST_DIR").map_or_else(PathBuf::new, PathBuf::from);
    let folder = package.join(env::var_os("WORFELLI_LIB").unwrap_or_else(|| DEFAULT.into()));
    let library = folder.join("libworfelli.a");
    println!("cargo::rerun-if-changed={}", library.display());
    if !library.is_file() {
        // No error: what links nothing, as check, doc and clippy, works without the library.
        println!(
            "cargo::warning=no {}, so nothing can be linked: run `rt lib --cpu x86-64` in the \
             repository's crates/worfelli, or name the library's folder in WORFELLI_LIB",
            library.display()
        );
    }
    println!("cargo::rustc-link-search=native={}", folder.display());
    // Not bundled into the crate's own library, so that it is looked for only where a program is linked.
    println!("cargo::rustc-link-lib=static:-bundle=worfelli");
}
