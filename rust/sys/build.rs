//! Tells cargo where the archive is: the folder named by THX_LIB_DIR, or target/staticlib below the
//! root of the repository.

use std::env;
use std::path::PathBuf;
use std::process::exit;

const ARCHIVE: &str = "libthonxiliko.a";

fn library_dir() -> PathBuf {
    match env::var_os("THX_LIB_DIR") {
        Some(dir) if !dir.is_empty() => PathBuf::from(dir),
        _ => {
            let here = env::var_os("CARGO_MANIFEST_DIR").expect("cargo names the package's folder");
            PathBuf::from(here).join("../../target/staticlib")
        }
    }
}

fn main() {
    println!("cargo:rerun-if-env-changed=THX_LIB_DIR");
    let dir = library_dir();
    let archive = dir.join(ARCHIVE);
    println!("cargo:rerun-if-changed={}", archive.display());
    if !archive.is_file() {
        eprintln!(
            "{} is not there. Make it with 'rust/archive' in the root of the \
             repository, or set THX_LIB_DIR to the (absolute) folder that holds {}.",
            archive.display(),
            ARCHIVE
        );
        exit(1);
    }
    println!("cargo:rustc-link-search=native={}", dir.display());
    println!("cargo:rustc-link-lib=static=thonxiliko");
}
