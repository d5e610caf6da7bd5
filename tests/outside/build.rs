//! Links libcapi.a from the folder named by CP_LIB_DIR.
fn main() {
    println!("cargo:rerun-if-env-changed=CP_LIB_DIR");
    println!("cargo:rerun-if-changed=build.rs");
    let folder = std::env::var("CP_LIB_DIR").expect("set CP_LIB_DIR to the folder of libcapi.a");
    println!("cargo:rerun-if-changed={folder}/libcapi.a");
    println!("cargo:rustc-link-search=native={folder}");
    println!("cargo:rustc-link-lib=static=capi");
}
