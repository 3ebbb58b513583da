//! Links the proved library: the archive or object file that PROVED_LIBRARY names.

/// The variable in which `tools/speed` hands the file over.
const VARIABLE: &str = "PROVED_LIBRARY";

fn main() {
    println!("cargo:rerun-if-env-changed={VARIABLE}");
    // Without it the program can still be checked, only not linked.
    if let Ok(file) = std::env::var(VARIABLE) {
        println!("cargo:rerun-if-changed={file}");
        println!("cargo:rustc-link-arg-bins={file}");
    }
}
