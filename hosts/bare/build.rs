//! Links the program with nothing: no start files, no C library.

fn main() {
    for word in ["-nostdlib", "-nostartfiles", "-static"] {
        println!("cargo:rustc-link-arg-bins={word}");
    }
}
