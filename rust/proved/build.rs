// Where the proved library lies: `rt lib` in crates/link writes it.
fn main() {
    let out = std::path::Path::new(env!("CARGO_MANIFEST_DIR")).join("../../crates/link/out");
    println!("cargo:rustc-link-search=native={}", out.display());
    println!("cargo:rustc-link-lib=static=link");
    println!("cargo:rerun-if-changed=../../crates/link/out/liblink.a");
}
