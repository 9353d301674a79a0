//! Writes the modules' declarations, each with the path of its file in the folder that OPTICS_CORE names.

use std::path::Path;
use std::{env, fs};

pub fn main() {
    println!("cargo:rerun-if-env-changed=OPTICS_CORE");
    let text = env::var("OPTICS_CORE").expect("OPTICS_CORE names the folder with the Rust text's types.rs");
    let module = |name: &str, file: &str| {
        let path = Path::new(&text).join(file).canonicalize().unwrap_or_else(|e| panic!("{file}: {e}"));
        println!("cargo:rerun-if-changed={}", path.display());
        format!("#[path = {path:?}]\n#[allow(dead_code)]\npub mod {name};\n")
    };
    let top = ["types", "error", "snell", "conic"].map(|name| module(name, &format!("{name}.rs")));
    let surface = ["asphere", "biconic"].map(|name| module(name, &format!("surface/{name}.rs")));
    let modules = format!("{}pub mod surface {{\n{}}}\n", top.concat(), surface.concat());
    fs::write(Path::new(&env::var("OUT_DIR").unwrap()).join("text.rs"), modules).unwrap();
}
