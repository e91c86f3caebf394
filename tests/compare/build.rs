//! Hands on the folder of the program show, which `SIMP_PROGRAMS` names.

fn main() {
    println!("cargo:rerun-if-env-changed=SIMP_PROGRAMS");
    if let Ok(folder) = std::env::var("SIMP_PROGRAMS") {
        println!("cargo:rustc-env=SIMP_PROGRAMS={folder}");
    }
}
