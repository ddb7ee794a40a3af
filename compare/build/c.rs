//! Compiles the C files, as a C host would be: by the system's compiler, with
//! the header as it stands.

use std::env;
use std::ffi::OsString;
use std::path::Path;
use std::process::Command;

/// The files, and the header that they include.
const FILES: [&str; 3] = ["calls", "apart", "loops"];
const FOLDER: &str = "live";
const HEADER: &str = "../include/worfelli.h";

const FLAGS: [&str; 6] = ["-std=c99", "-O2", "-fPIE", "-Wall", "-Wextra", "-Werror"];

/// Compiles the files into a library in `out`, and links it.
pub fn compile(out: &Path) -> Result<(), String> {
    println!("cargo::rerun-if-changed={HEADER}");
    let mut objects = Vec::new();
    for name in FILES {
        let source = format!("{FOLDER}/{name}.c");
        let object = out.join(format!("{name}.o"));
        println!("cargo::rerun-if-changed={source}");
        let mut compiler = Command::new(tool("CC", "cc"));
        compiler
            .args(FLAGS)
            .args(["-c", &source, "-o"])
            .arg(&object);
        run(&mut compiler, &source)?;
        objects.push(object);
    }
    let library = out.join("liblive.a");
    let mut archiver = Command::new(tool("AR", "ar"));
    archiver.arg("crs").arg(&library).args(objects);
    run(&mut archiver, "liblive.a")?;
    println!("cargo::rustc-link-search=native={}", out.display());
    println!("cargo::rustc-link-lib=static=live");
    Ok(())
}

/// The program that `variable` names, or else `default`.
fn tool(variable: &str, default: &str) -> OsString {
    println!("cargo::rerun-if-env-changed={variable}");
    env::var_os(variable).unwrap_or_else(|| default.into())
}

/// Runs `command`, which makes `what`. What it said on a failure is told as one
/// line.
fn run(command: &mut Command, what: &str) -> Result<(), String> {
    let program = command.get_program().to_string_lossy().into_owned();
    let output = command
        .output()
        .map_err(|error| format!("{program}, which would make {what}: {error}"))?;
    if output.status.success() {
        return Ok(());
    }
    let said = String::from_utf8_lossy(&output.stderr);
    let said: Vec<&str> = said.lines().map(str::trim).collect();
    Err(format!("{program} can't make {what}: {}", said.join(" / ")))
}
