//! Links the static library that the repository builds into the program `compare`, and into nothing else.
fn main() {
    let package = std::env::var("CARGO_MANIFEST_DIR").expect("set by cargo");
    let library = format!("{package}/../../target/staticlib/libuldaseong.a");
    println!("cargo:rustc-link-arg-bin=compare={library}");
    println!("cargo:rerun-if-changed={library}");
}
