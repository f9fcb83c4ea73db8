//! Links libjistranu.a, from the folder that JISTRANU_LIB_DIR names or from target/staticlib of the repository.

fn main() {
    let of_repository = || format!("{}/../../target/staticlib", env!("CARGO_MANIFEST_DIR"));
    let folder = std::env::var("JISTRANU_LIB_DIR").unwrap_or_else(|_| of_repository());
    println!("cargo:rerun-if-env-changed=JISTRANU_LIB_DIR");
    println!("cargo:rerun-if-changed={folder}/libjistranu.a");
    println!("cargo:rustc-link-search=native={folder}");
    println!("cargo:rustc-link-lib=static=jistranu");
}
