//! Says where the static library of the proved engine is: in the directory
//! that KP_LIB names. Only the comparison and the benchmark link it.

fn main() {
    println!("cargo::rerun-if-env-changed=KP_LIB");
    if let Ok(dir) = std::env::var("KP_LIB") {
        println!("cargo::rustc-link-search=native={dir}");
        println!("cargo::rerun-if-changed={dir}/libhost.a");
    }
}
