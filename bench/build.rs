//! Links the proved library, which `tests/capi/build-library` writes, and SQLite.
fn main() {
    let top = std::path::Path::new(env!("CARGO_MANIFEST_DIR")).join("..");
    println!("cargo:rustc-link-search=native={}", top.join("target/staticlib").display());
    println!("cargo:rustc-link-lib=static=capi");
    println!("cargo:rustc-link-lib=dylib=sqlite3");
    println!("cargo:rerun-if-changed={}", top.join("target/staticlib/libcapi.a").display());
}
