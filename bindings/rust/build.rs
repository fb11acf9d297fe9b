//! Links libpwcheck.a, which lies in the folder that PWCHECK_LIB names or where the linker looks.
fn main() {
    println!("cargo::rerun-if-env-changed=PWCHECK_LIB");
    if let Ok(folder) = std::env::var("PWCHECK_LIB") {
        println!("cargo::rustc-link-search=native={folder}");
    }
    println!("cargo::rustc-link-lib=static=pwcheck");
}
