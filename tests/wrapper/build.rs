// Links the archive that `rt lib` writes in crates/c_interface/out, or the one in the folder
// PURKVALDI_ARCHIVE.
fn main() {
    println!("cargo:rerun-if-env-changed=PURKVALDI_ARCHIVE");
    let root = match std::env::var_os("PURKVALDI_ARCHIVE") {
        Some(folder) => folder.into(),
        None => std::path::Path::new(env!("CARGO_MANIFEST_DIR")).join("../../crates/c_interface/out"),
    };
    println!(
        "cargo:rerun-if-changed={}",
        root.join("libc_interface.a").display()
    );
    println!("cargo:rustc-link-search=native={}", root.display());
    println!("cargo:rustc-link-lib=static=c_interface");
}
