//! Lets program `other_version` define a function that the archive has too.
fn main() {
    println!("cargo::rustc-link-arg-bin=other_version=-Wl,--allow-multiple-definition");
}
