//! Links the two archives for C, which `make build/lib/libsheets.a build/lib/libdesk.a` writes, and the gate too.

fn main() {
    let here = std::env::var("CARGO_MANIFEST_DIR").expect("cargo sets it");
    let archives = format!("{here}/../build/lib");
    println!("cargo:rerun-if-changed=build.rs");
    println!("cargo:rustc-link-search=native={archives}");
    for library in ["sheets", "desk"] {
        println!("cargo:rustc-link-lib=static={library}");
        println!("cargo:rerun-if-changed={archives}/lib{library}.a");
    }
}
