//! Says where examples/library puts the proved library.

fn main() {
    let root = std::env::var("CARGO_MANIFEST_DIR").expect("cargo sets it");
    println!("cargo:rustc-link-search=native={root}/../../target/staticlib");
    println!("cargo:rerun-if-changed={root}/../../target/staticlib/libedr_c.a");
}
