//! Links the proved library: WINGED_LIB names the folder of libwinged.a, which `tools/build library` writes.
fn main() {
    let folder = std::env::var("WINGED_LIB").unwrap_or_else(|_| concat!(env!("CARGO_MANIFEST_DIR"), "/../target/staticlib").into());
    println!("cargo:rustc-link-search=native={folder}");
    println!("cargo:rustc-link-lib=static=winged");
    println!("cargo:rerun-if-env-changed=WINGED_LIB");
    println!("cargo:rerun-if-changed={folder}/libwinged.a");
}
