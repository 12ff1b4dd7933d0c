//! Links the proved library; `bench/run` builds it first and says where it is.
fn main() {
    let folder = std::env::var("WINGED_LIB").expect("WINGED_LIB: the folder of libwinged.a (use bench/run)");
    println!("cargo:rustc-link-search=native={folder}");
    println!("cargo:rustc-link-lib=static=winged");
    println!("cargo:rerun-if-env-changed=WINGED_LIB");
    println!("cargo:rerun-if-changed={folder}/libwinged.a");
}
