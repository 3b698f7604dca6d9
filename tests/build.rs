//! With the feature `library`, links the archive of the proved library. Its folder is the
//! environment variable IRGA_LIBRARY's, or the one that `tools/build host` writes to.

use std::env;
use std::path::PathBuf;
use std::process;

const DEFAULT_FOLDER: &str = "../target/staticlib";

fn main() {
    println!("cargo:rerun-if-changed=build.rs");
    println!("cargo:rerun-if-env-changed=IRGA_LIBRARY");
    if env::var_os("CARGO_FEATURE_LIBRARY").is_some() {
        link();
    }
}

fn link() {
    let folder = env::var_os("IRGA_LIBRARY").unwrap_or_else(|| DEFAULT_FOLDER.into());
    let folder = PathBuf::from(folder);
    let archive = folder.join("libhost.a");
    println!("cargo:rerun-if-changed={}", archive.display());
    let Ok(archive) = archive.canonicalize() else {
        let from = env::current_dir().unwrap_or_default();
        let wanted = from.join(archive);
        eprintln!("the feature `library` needs {}, and it is not there:", wanted.display());
        eprintln!("make it by `tools/build host`, or name its folder in IRGA_LIBRARY");
        process::exit(1);
    };
    let folder = archive.parent().unwrap_or(&folder);
    println!("cargo:rustc-link-search=native={}", folder.display());
    println!("cargo:rustc-link-lib=static=host");
    // The tests link C programs with the same archive.
    println!("cargo:rustc-env=IRGA_ARCHIVE={}", archive.display());
}
