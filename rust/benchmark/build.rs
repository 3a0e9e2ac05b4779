//! Looks for the libraries of peers. Where the C compiler of the target finds header and library, the
//! feature of that name is set and the library linked; else the benchmark is built without that peer.

use std::env;
use std::fs;
use std::path::{Path, PathBuf};
use std::process::{Command, Stdio};

/// Feature and library, header, and a call that must link.
const PEERS: [(&str, &str, &str); 2] =
    [("lz4", "lz4.h", "LZ4_versionNumber"), ("zstd", "zstd.h", "ZSTD_versionNumber")];

/// The linker that cargo was told for the target; else the machine's own compiler, if it is for that.
fn compiler() -> Option<String> {
    let own = env::var("TARGET") == env::var("HOST");
    let named = |name| env::var(name).ok().filter(|word: &String| !word.is_empty());
    named("RUSTC_LINKER")
        .or_else(|| named("CC").filter(|_| own))
        .or_else(|| own.then(|| "cc".into()))
}

/// Whether a program that calls the library is made. The header alone may be that of another machine.
fn is_found(compiler: &str, folder: &Path, (library, header, call): (&str, &str, &str)) -> bool {
    let source = folder.join(format!("{library}.c"));
    let text = format!("#include <{header}>\nint main(void) {{ return {call}() == 0; }}\n");
    fs::write(&source, text).is_ok()
        && Command::new(compiler)
            .arg(&source)
            .arg("-o")
            .arg(folder.join(library))
            .arg(format!("-l{library}"))
            .stderr(Stdio::null())
            .status()
            .map_or(false, |status| status.success())
}

fn main() {
    println!("cargo:rerun-if-changed=build.rs");
    println!("cargo:rerun-if-env-changed=CC");
    // A library that is installed later is noticed by its header's folder.
    let headers = Path::new("/usr/include");
    if headers.exists() {
        println!("cargo:rerun-if-changed={}", headers.display());
    }
    let folder = PathBuf::from(env::var_os("OUT_DIR").expect("cargo names a folder"));
    let compiler = match compiler() {
        Some(compiler) => compiler,
        None => return,
    };
    for peer in PEERS {
        if is_found(&compiler, &folder, peer) {
            println!("cargo:rustc-cfg=feature=\"{}\"", peer.0);
            println!("cargo:rustc-link-lib={}", peer.0);
        }
    }
}
