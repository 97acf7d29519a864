//! Links the proved archive, which `rt lib` makes in crates/lembuya.
use std::path::Path;

fn main() {
    let folder = std::env::var("LEMBUYA_ARCHIVE").unwrap_or_else(|_| {
        let manifest = std::env::var("CARGO_MANIFEST_DIR").expect("cargo sets it");
        format!("{manifest}/../crates/lembuya/out")
    });
    let archive = Path::new(&folder).join("liblembuya.a");
    println!("cargo::rerun-if-env-changed=LEMBUYA_ARCHIVE");
    println!("cargo::rerun-if-changed={}", archive.display());
    if !archive.exists() {
        println!(
            "cargo::error=the proved archive isn't there: {}. Run `tools/proving lembuya` in the repository's root \
             (it proves the hub and writes the archive), or set LEMBUYA_ARCHIVE to its folder.",
            archive.display()
        );
    }
    println!("cargo::rustc-link-search=native={folder}");
    println!("cargo::rustc-link-lib=static=lembuya");
}
