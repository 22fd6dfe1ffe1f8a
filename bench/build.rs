// Links the calls' archive, which `./build` writes at the repository's root.
fn main() {
    let root = std::path::Path::new(env!("CARGO_MANIFEST_DIR")).parent().expect("the repository");
    let archive = root.join("target/staticlib");
    println!("cargo:rustc-link-search=native={}", archive.display());
    println!("cargo:rustc-link-lib=static=neblinaro");
    println!("cargo:rerun-if-changed={}", archive.join("libneblinaro.a").display());
}
