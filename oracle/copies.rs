//! Copies of given files with places in them replaced, for the crates that compile the given Rust with another measure put in. The
//! given files stay as they are.
use std::env;
use std::fs;
use std::ops::Range;
use std::path::{Path, PathBuf};

/// In a given file below `src/geo/algo/`, inside a function: what starts with one text and ends with another becomes a third.
pub struct Edit {
    pub file: &'static str,
    pub function: &'static str,
    pub from: &'static str,
    pub to: &'static str,
    pub new: &'static str,
}

/// The place behind the first occurrence of a text from a place on.
fn behind(text: &str, from: usize, part: &str) -> usize {
    let found = text[from..].find(part);
    from + found.unwrap_or_else(|| panic!("the given Rust has no '{part}' where it is looked for")) + part.len()
}

/// Where a function stands in a file.
fn place(text: &str, function: &str) -> Range<usize> {
    let head = behind(text, 0, &format!("pub fn {function}("));
    head..behind(text, head, "\n}\n")
}

/// The file with one place replaced.
fn edited(text: &str, edit: &Edit) -> String {
    let inside = place(text, edit.function);
    let found = behind(text, inside.start, edit.from);
    let stop = behind(text, found, edit.to);
    assert!(stop < inside.end, "{} has '{}' and then '{}'", edit.function, edit.from, edit.to);
    format!("{}{}{}", &text[..found - edit.from.len()], edit.new, &text[stop..])
}

/// Whether an edited function has no such place left but in what was put in.
fn done(text: &str, edit: &Edit, all: &[Edit]) -> bool {
    let given = |left: String, other: &Edit| left.replace(other.new, "");
    !all.iter().fold(text[place(text, edit.function)].to_string(), given).contains(edit.from)
}

/// The modules, with the edited files in the place of the given ones.
fn tree(out: &Path, files: &[&str]) -> String {
    let module = |file: &&str| {
        let name = file.strip_suffix(".rs").expect("a file of Rust");
        format!("#[path = {:?}] pub mod {name};\n", out.join(file).display().to_string())
    };
    let algo: String = files.iter().map(module).collect();
    let kept = "pub use raygeo::geo::{geometry, shape, types};\n";
    format!("pub use raygeo::constants;\npub mod geo {{\n{kept}pub mod algo {{\n{algo}}}\n}}\n")
}

/// Writes the copies and their module tree into the output folder, where the given Rust is at hand.
pub fn write(edits: &[Edit]) {
    println!("cargo::rustc-check-cfg=cfg(given)");
    // what raygeo's own build found
    let Ok(src) = env::var("DEP_RAYGEO_SRC") else { return };
    let out = PathBuf::from(env::var("OUT_DIR").expect("cargo names the output folder"));
    let mut files: Vec<&str> = edits.iter().map(|edit| edit.file).collect();
    files.dedup();
    for file in &files {
        let given = Path::new(&src).join("geo/algo").join(file);
        println!("cargo::rerun-if-changed={}", given.display());
        let mut text = fs::read_to_string(given).expect("a file that is there");
        for edit in edits.iter().filter(|edit| edit.file == *file) {
            text = edited(&text, edit);
        }
        let whole = edits.iter().filter(|edit| edit.file == *file).all(|edit| done(&text, edit, edits));
        assert!(whole, "{file} has more such places than edits");
        fs::write(out.join(file), text).expect("the output folder takes a file");
    }
    fs::write(out.join("tree.rs"), tree(&out, &files)).expect("the output folder takes a file");
    println!("cargo::rustc-cfg=given");
}
