//! Writes the module tree that takes the given files from where they stand, and says whether they are there.
//!
//! They are looked for in `../shared/docs/src` beside the repository, or where the variable RAYGEO_SRC says. None of them
//! is copied: each module of the tree names a file by its path.
use std::env;
use std::fs;
use std::path::{Path, PathBuf};

/// The given files that are compiled, below `src/`.
const FILES: [&str; 7] = [
    "constants.rs",
    "geo/types.rs",
    "geo/shape/arc.rs",
    "geo/shape/bezier.rs",
    "geo/shape/point.rs",
    "geo/algo/fitting.rs",
    "geo/algo/simplify.rs",
];

/// The folder that holds `src/`.
fn folder() -> PathBuf {
    println!("cargo::rerun-if-env-changed=RAYGEO_SRC");
    match env::var("RAYGEO_SRC") {
        Ok(folder) if !folder.is_empty() => PathBuf::from(folder),
        _ => Path::new(&env::var("CARGO_MANIFEST_DIR").expect("cargo names the package's folder"))
            .join("../../../shared/docs/src"),
    }
}

/// A module of the tree: its name, and the file that it is.
fn module(src: &Path, file: &str) -> String {
    let name = Path::new(file).file_stem().and_then(|name| name.to_str()).expect("a name");
    format!("#[path = {:?}] pub mod {name};\n", src.join(file).display().to_string())
}

/// The modules below one folder, with those that stand in for the ones not given.
fn inner(name: &str, src: &Path, files: &[&str], not_given: &str) -> String {
    let modules: String = files.iter().map(|file| module(src, file)).collect();
    format!("pub mod {name} {{\n{modules}pub use crate::not_given::{{{not_given}}};\n}}\n")
}

/// The tree of the given crate, as far as it is compiled.
fn tree(src: &Path) -> String {
    let shape = inner("shape", src, &FILES[2..5], "circle, line, polygon");
    let algo = inner("algo", src, &FILES[5..7], "interp");
    let types = module(src, FILES[1]);
    format!("{}pub mod geo {{\n{types}{shape}{algo}pub use crate::not_given::geometry;\n}}\n", module(src, FILES[0]))
}

fn main() {
    let src = folder().join("src");
    for file in FILES {
        println!("cargo::rerun-if-changed={}", src.join(file).display());
    }
    println!("cargo::rustc-check-cfg=cfg(given)");
    let missing = FILES.iter().find(|file| !src.join(file).is_file());
    if let Some(file) = missing {
        println!(
            "cargo::warning=the given Rust is not at hand ({} is missing): nothing is compared with it",
            src.join(file).display()
        );
        println!("cargo::metadata=GIVEN=no");
        return;
    }
    let src = src.canonicalize().expect("a folder that is there");
    let out = PathBuf::from(env::var("OUT_DIR").expect("cargo names the output folder"));
    fs::write(out.join("tree.rs"), tree(&src)).expect("the output folder takes a file");
    println!("cargo::rustc-cfg=given");
    println!("cargo::metadata=GIVEN=yes");
    println!("cargo::metadata=SRC={}", src.display());
}
