//! Links the archive that `scripts/archive` makes.

fn main() {
    let folder = concat!(env!("CARGO_MANIFEST_DIR"), "/../target/native");
    println!("cargo:rerun-if-changed={folder}/libacknowledgment.a");
    println!("cargo:rustc-link-search=native={folder}");
    println!("cargo:rustc-link-lib=static=acknowledgment");
}
