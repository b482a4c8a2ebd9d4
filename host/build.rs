//! Links the proved static library, and links again when it has changed.
fn main() {
    let folder = std::env::var("TUGRELIS_LIB").expect("TUGRELIS_LIB is the folder of libservice.a: use host/run");
    println!("cargo:rustc-link-search=native={folder}");
    println!("cargo:rustc-link-lib=static=service");
    println!("cargo:rerun-if-changed={folder}/libservice.a");
    println!("cargo:rerun-if-env-changed=TUGRELIS_LIB");
}
