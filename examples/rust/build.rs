//! Links the archive of the proved functions.

fn main() {
    let folder = std::env::var("PILINGRUE_LIB").expect("PILINGRUE_LIB names the folder that has libstation.a");
    println!("cargo:rerun-if-env-changed=PILINGRUE_LIB");
    println!("cargo:rerun-if-changed={folder}/libstation.a");
    println!("cargo:rustc-link-search=native={folder}");
    println!("cargo:rustc-link-lib=static=station");
}
