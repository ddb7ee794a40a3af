//! The declarations of the libraries' exports are those of the Rattle's source,
//! here and in the header: none is missing, none is too many, and their types
//! agree.

use std::fs;
use std::path::Path;

use compare::library::{Export, LISTS, NOTE, NUMBERS};

/// All source files of a crate.
fn sources(of: &str) -> Vec<String> {
    let crates = Path::new(env!("CARGO_MANIFEST_DIR")).join("../crates");
    sources_in(&crates.join(of).join("src"))
}

/// All source files in a folder and in those within it.
fn sources_in(folder: &Path) -> Vec<String> {
    let Ok(entries) = fs::read_dir(folder) else {
        panic!("{}: no such folder", folder.display());
    };
    let mut texts = Vec::new();
    for entry in entries.flatten().map(|entry| entry.path()) {
        if entry.is_dir() {
            texts.extend(sources_in(&entry));
        } else if entry.extension().is_some_and(|of| of == "rt") {
            texts.push(fs::read_to_string(entry).expect("a text"));
        }
    }
    texts
}

/// A declaration as one line, `name(type, type) -> type`.
fn shown(name: &str, arguments: &[&str], result: &str) -> String {
    format!("{name}({}) -> {result}", arguments.join(", "))
}

/// The exported functions of `source`.
fn exported(source: &str) -> Vec<String> {
    source
        .split("#[unsafe(no_mangle)]\npub extern \"C\" fn ")
        .skip(1)
        .map(|rest| {
            let (name, rest) = rest.split_once('(').expect("a list of parameters");
            let (parameters, rest) = rest.split_once(')').expect("its end");
            let rest = rest.strip_prefix(" -> ").expect("a result");
            let result = rest.split_whitespace().next().expect("its type");
            let types: Vec<&str> = parameters
                .split(',')
                .filter_map(|parameter| parameter.split_once(':'))
                .map(|(_, of)| of.trim())
                .collect();
            shown(name, &types, result)
        })
        .collect()
}

/// All that a crate exports, in order.
fn exports_of(of: &str) -> Vec<String> {
    let sources = sources(of);
    let mut exported: Vec<String> = sources.iter().flat_map(|text| exported(text)).collect();
    exported.sort();
    exported
}

/// What is declared here, in order.
fn declared(groups: &[&[Export]]) -> Vec<String> {
    let declared = groups.iter().flat_map(|group| group.iter());
    let mut declared: Vec<String> = declared
        .map(|export| shown(export.symbol, export.arguments, export.result))
        .collect();
    declared.sort();
    declared
}

#[test]
fn exports() {
    let declared = declared(&[NUMBERS, &[NOTE]]);
    assert_eq!(declared, exports_of("exports"));
}

/// The rest of the library is called through the header.
#[test]
fn lists() {
    let exported = exports_of("worfelli");
    for declared in declared(&[LISTS]) {
        assert!(exported.contains(&declared), "{declared}");
    }
}

/// The C types that a Rattle type passes as.
fn in_c(of: &str) -> Vec<String> {
    let number = |of| match of {
        "u8" => "uint8_t",
        "u32" | "Codes" => "uint32_t",
        "u64" | "Counts" => "uint64_t",
        "i64" => "int64_t",
        "usize" => "size_t",
        "f32" | "Floats" => "float",
        "f64" | "Bends" => "double",
        "Bank" => "worfelli_bank",
        other => panic!("no C type for {other}"),
    };
    let Some(lent) = of.strip_prefix('&') else {
        return vec![number(of).into()];
    };
    let (what, is_kept) = match lent.strip_prefix("mut ") {
        Some(what) => (what, ""),
        None => (lent, "const "),
    };
    let elements = what
        .strip_prefix('[')
        .and_then(|what| what.strip_suffix(']'));
    // An array is a pointer, and a slice a pointer and its length.
    match elements.map(|elements| elements.split_once(';')) {
        Some(Some((element, _))) => vec![format!("{is_kept}{} *", number(element))],
        Some(None) => {
            let element = elements.map_or("", number);
            vec![format!("{is_kept}{element} *"), "size_t".into()]
        }
        None => vec![format!("{is_kept}{} *", number(what))],
    }
}

/// An exported function as C declares it.
fn declared_in_c(exported: &str) -> String {
    let (name, rest) = exported.split_once('(').expect("a list of types");
    let (types, result) = rest.split_once(") -> ").expect("a result");
    let types = types.split(", ").filter(|of| !of.is_empty());
    let types: Vec<String> = types.flat_map(in_c).collect();
    let result = in_c(result).concat();
    format!("{result} {name}({})", types.join(", "))
}

/// The functions that the header declares and doesn't define, without the names
/// of their parameters.
fn prototypes(header: &str) -> Vec<String> {
    let types = ["uint32_t", "uint64_t", "int64_t", "size_t"];
    let begins = |line: &str| {
        types
            .iter()
            .any(|of| line.starts_with(&format!("{of} worfelli_")))
    };
    let mut rest = header;
    let mut found = Vec::new();
    while let Some(line) = rest.lines().next() {
        if begins(line) {
            let (declaration, _) = rest.split_once(';').expect("its end");
            let (name, parameters) = declaration.split_once('(').expect("its parameters");
            let parameters = parameters.trim_end_matches(')').split(',');
            let types: Vec<String> = parameters.filter_map(type_of).collect();
            found.push(format!("{name}({})", types.join(", ")));
        }
        rest = rest.get(line.len() + 1..).unwrap_or("");
    }
    found.sort();
    found
}

/// The type of a parameter, if it is one.
fn type_of(parameter: &str) -> Option<String> {
    let words = parameter.split_whitespace().collect::<Vec<_>>().join(" ");
    let is_name = |letter: char| letter.is_ascii_lowercase() || letter == '_';
    let of = words.trim_end_matches(is_name).trim_end();
    (words != "void").then(|| of.to_string())
}

#[test]
fn header() {
    let file = Path::new(env!("CARGO_MANIFEST_DIR")).join("../include/worfelli.h");
    let header = fs::read_to_string(file).expect("the header");
    let mut exported: Vec<String> = exports_of("worfelli");
    exported = exported.iter().map(|of| declared_in_c(of)).collect();
    exported.sort();
    assert_eq!(prototypes(&header), exported);
}
