//! With the feature `library` the proved library is linked: `bin/library` writes it.

fn main() {
    println!("cargo:rerun-if-changed=build.rs");
    println!("cargo:rerun-if-env-changed=CROSSPOINT_LIB");
    if std::env::var_os("CARGO_FEATURE_LIBRARY").is_none() {
        return;
    }
    let folder = std::env::var("CROSSPOINT_LIB")
        .unwrap_or_else(|_| format!("{}/../target/staticlib", env!("CARGO_MANIFEST_DIR")));
    println!("cargo:rerun-if-changed={folder}/libcrosspoint.a");
    println!("cargo:rustc-link-search=native={folder}");
    println!("cargo:rustc-link-lib=static=crosspoint");
}
