//! Derives the Rust's envelope: its files with the tables' changes, and a file
//! with the line that brings them in. Of its text the tables keep what they
//! substitute, and nothing else is kept.

use std::fs;
use std::path::Path;

use crate::table::{ADDITIONS, FILES, FOLDER, LEFT, MACHINE_DEPENDENT, SUBSTITUTIONS};

/// Writes the derived files and `rust.rs`, which declares them, to `out`.
pub fn derive(sources: &Path, out: &Path) -> Result<(), String> {
    let folder = out.join("envelope");
    fs::create_dir_all(&folder).map_err(|e| format!("{}: {e}", folder.display()))?;
    for file in FILES {
        let source = sources.join(FOLDER).join(file);
        println!("cargo::rerun-if-changed={}", source.display());
        let text = fs::read_to_string(&source)
            .map_err(|e| format!("{}: {e} (WORFELLI_RUST names the folder)", source.display()))?;
        let text = derived(file, text)
            .map_err(|e| format!("{}: {e}; the derivation stops", source.display()))?;
        write(&folder.join(file), &text)?;
    }
    write(&out.join("rust.rs"), &declaration(&folder.join("mod.rs")))
}

fn write(file: &Path, text: &str) -> Result<(), String> {
    fs::write(file, text).map_err(|e| format!("{}: {e}", file.display()))
}

/// The line that brings the derived `mod.rs` in. A file of its own keeps its
/// inner doc comments legal, which `include!` of the text would not. Warnings
/// about code that is not ours are silenced here and nowhere else.
fn declaration(file: &Path) -> String {
    format!(
        "#[allow(warnings, clippy::all, clippy::pedantic)]\n#[path = {:?}]\npub mod envelope;\n",
        file.display().to_string()
    )
}

/// `text`, the content of `file`, with its substitutions and additions.
fn derived(file: &str, mut text: String) -> Result<String, String> {
    for row in SUBSTITUTIONS.iter().filter(|row| row.file == file) {
        let found = text.matches(row.text).count();
        if found != row.times {
            return Err(format!(
                "{:?} expected {}, found {found}",
                row.text,
                times(row.times)
            ));
        }
        text = text.replace(row.text, row.replacement);
    }
    for name in MACHINE_DEPENDENT {
        let (found, expected) = (calls(&text, name), left(file, name));
        if found != expected {
            return Err(format!(
                "calls of {name:?} left after substitution: expected {}, found {found}",
                times(expected)
            ));
        }
    }
    for (_, lines) in ADDITIONS.iter().filter(|(of, _)| *of == file) {
        text.push('\n');
        text.push_str(lines);
    }
    Ok(text)
}

fn times(count: usize) -> String {
    match count {
        1 => "1 time".into(),
        _ => format!("{count} times"),
    }
}

/// How many calls of `name` may stay in `file`.
fn left(file: &str, name: &str) -> usize {
    LEFT.iter()
        .find(|(of, call, _)| *of == file && *call == name)
        .map_or(0, |(_, _, count)| *count)
}

/// How often `name` is called in `text`, as a method or by its path: the name
/// as a whole word, with an opening bracket right after it.
fn calls(text: &str, name: &str) -> usize {
    let call = format!("{name}(");
    text.match_indices(&call)
        .filter(|(at, _)| {
            !text[..*at].ends_with(|before: char| before.is_alphanumeric() || before == '_')
        })
        .count()
}
