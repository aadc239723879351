//! Links the archive that tools/archive wrote; its folder is in LUGWORMPIN_ARCHIVE.
fn main() {
    let folder = std::env::var("LUGWORMPIN_ARCHIVE").expect("LUGWORMPIN_ARCHIVE: the folder of libexport.a");
    println!("cargo:rustc-link-search=native={folder}");
    println!("cargo:rustc-link-lib=static=export");
    println!("cargo:rerun-if-env-changed=LUGWORMPIN_ARCHIVE");
    println!("cargo:rerun-if-changed={folder}/libexport.a");
}
