//! Links the library's half and its heap, and the library for C, from the folders that are named.

fn main() {
    println!("cargo:rerun-if-env-changed=OURS");
    let folder = std::env::var("OURS").expect("bench/run names the folder of the archives in OURS");
    println!("cargo:rustc-link-search=native={folder}");
    for archive in ["ours", "ours_heap"] {
        println!("cargo:rerun-if-changed={folder}/lib{archive}.a");
        println!("cargo:rustc-link-lib=static={archive}");
    }
    println!("cargo:rerun-if-env-changed=BY_C");
    let folder =
        std::env::var("BY_C").expect("bench/run names the folder of the library for C in BY_C");
    println!("cargo:rerun-if-changed={folder}/libstring_interner.so");
    println!("cargo:rustc-link-arg=-Wl,-rpath,{folder}");
    println!("cargo:rustc-link-arg={folder}/libstring_interner.so");
}
