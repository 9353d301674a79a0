//! The Rust text as the oracle takes it, and the archive of the functions that are measured one by one. The wrapper's
//! own build links the other archive, `libstation.a` of the same folder.

#[path = "../../oracle/build.rs"]
mod text;

fn main() {
    text::main();
    let folder = std::env::var("PILINGRUE_LIB").expect("PILINGRUE_LIB names the folder with the archives");
    println!("cargo:rerun-if-env-changed=PILINGRUE_LIB");
    println!("cargo:rerun-if-changed={folder}/libmeasured.a");
    println!("cargo:rustc-link-search=native={folder}");
    println!("cargo:rustc-link-lib=static=measured");
}
