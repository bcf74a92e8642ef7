//! Links `libnebosvar.a`: from the folder `$NEBOSVAR_LIB` if that is set, else from `target/staticlib`
//! at the repository's root. A relative folder starts at this crate's.

use std::env;
use std::path::Path;

fn main() {
    let folder = env::var_os("NEBOSVAR_LIB").unwrap_or_else(|| "../../target/staticlib".into());
    let folder = Path::new(env!("CARGO_MANIFEST_DIR")).join(folder);
    let archive = folder.join("libnebosvar.a");
    println!("cargo:rerun-if-env-changed=NEBOSVAR_LIB");
    println!("cargo:rerun-if-changed={}", archive.display());
    if !archive.is_file() {
        println!(
            "cargo:warning=there is no {}: run `make` at the repository's root",
            archive.display()
        );
    }
    println!("cargo:rustc-link-search=native={}", folder.display());
    println!("cargo:rustc-link-lib=static=nebosvar");
}
