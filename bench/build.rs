// Links the proved tag's static library, built by `rt lib` in crates/stand.
fn main() {
    let folder = concat!(env!("CARGO_MANIFEST_DIR"), "/../crates/stand/out");
    println!("cargo:rustc-link-search=native={folder}");
    println!("cargo:rustc-link-lib=static=stand");
    println!("cargo:rerun-if-changed={folder}/libstand.a");
}
