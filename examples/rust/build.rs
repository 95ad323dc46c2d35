//! Links libgptman, from the folder GPTMAN_LIB where that is set.

fn main() {
    println!("cargo:rerun-if-env-changed=GPTMAN_LIB");
    if let Ok(folder) = std::env::var("GPTMAN_LIB") {
        println!("cargo:rustc-link-search=native={folder}");
    }
    println!("cargo:rustc-link-lib=static=gptman");
}
