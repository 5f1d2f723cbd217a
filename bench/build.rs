//! Says where the archive of the exported functions is, and that the program is linked anew when it changes.

fn main() {
    let archives = concat!(env!("CARGO_MANIFEST_DIR"), "/../target/staticlib");
    println!("cargo:rustc-link-search=native={archives}");
    println!("cargo:rerun-if-changed={archives}/libexports.a");
}
