//! Links the archive of proved functions that `firmware/archive` writes, and says whether the given Rust is at hand.
use std::env;
use std::path::Path;

fn main() {
    let here = env::var("CARGO_MANIFEST_DIR").expect("cargo names the package's folder");
    let folder = Path::new(&here).join("../target/staticlib");
    println!("cargo::rustc-link-search=native={}", folder.display());
    println!("cargo::rustc-link-lib=static=exports");
    println!("cargo::rerun-if-changed={}", folder.join("libexports.a").display());
    // what raygeo's own build found
    println!("cargo::rustc-check-cfg=cfg(given)");
    if env::var("DEP_RAYGEO_GIVEN").as_deref() == Ok("yes") {
        println!("cargo::rustc-cfg=given");
    }
}
