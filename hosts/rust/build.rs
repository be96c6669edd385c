//! Links the archive that `tests/archive` writes; DATATYPE_ABI names its folder, by default target/staticlib of the repository.
fn main() {
    let here = std::env::var("CARGO_MANIFEST_DIR").unwrap_or_default();
    let folder = std::env::var("DATATYPE_ABI").unwrap_or_else(|_| format!("{here}/../../target/staticlib"));
    println!("cargo:rustc-link-search=native={folder}");
    println!("cargo:rustc-link-lib=static=abi");
    println!("cargo:rerun-if-env-changed=DATATYPE_ABI");
    println!("cargo:rerun-if-changed={folder}/libabi.a");
}
