//! Adds to the support module what programs use.

fn main() {
    println!("cargo:rustc-cfg=programs");
}
