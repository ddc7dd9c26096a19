//! Links the archive of the product's entries.

fn main() {
    let archive = archive::link("capi");
    // To the build script of a program that says by which archive it marks.
    println!("cargo::metadata=archive={}", archive.display());
}
