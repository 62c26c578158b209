//! Links the proved static library: the file named by TIPSHARE_LIB, else the one of this repository.

use std::path::{Path, PathBuf};
use std::{env, fs, process};

/// Where a relative path counts from: the root of the repository, seen from this crate.
const ROOT: &str = "..";
const DEFAULT: &str = "target/staticlib/libtipshare_c.a";

fn main() {
    println!("cargo:rerun-if-env-changed=TIPSHARE_LIB");
    let named = env::var_os("TIPSHARE_LIB").map_or_else(|| PathBuf::from(DEFAULT), PathBuf::from);
    let library = Path::new(ROOT).join(&named);
    println!("cargo:rerun-if-changed={}", library.display());
    if !library.is_file() {
        eprintln!("There is no static library {}.", named.display());
        eprintln!("Run `make` at the root of the repository, which builds {DEFAULT} first;");
        eprintln!("or name another file in TIPSHARE_LIB (a relative path counts from the root of the repository).");
        process::exit(1);
    }
    // A copy under the name that the linker looks for, whatever the file is called.
    let folder = env::var("OUT_DIR").expect("cargo names OUT_DIR");
    fs::copy(&library, Path::new(&folder).join("libtipshare_c.a")).expect("copying the static library");
    println!("cargo:rustc-link-search=native={folder}");
    println!("cargo:rustc-link-lib=static=tipshare_c");
}
