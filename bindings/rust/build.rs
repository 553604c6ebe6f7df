//! Links libmiss_chance.a, from the folder that `MISS_CHANCE_LIB_DIR` names or else from where
//! `tools/build.sh miss_chance` writes it in the repository around this package.

use std::path::{absolute, Path};
use std::{env, io};

const VARIABLE: &str = "MISS_CHANCE_LIB_DIR";

fn main() -> io::Result<()> {
    println!("cargo::rerun-if-env-changed={VARIABLE}");
    // Cargo runs this in the package's folder, so a relative name counts from there; the message
    // shows the whole path.
    let folder = match env::var_os(VARIABLE).filter(|named| !named.is_empty()) {
        Some(named) => absolute(named)?,
        None => Path::new("../..").canonicalize()?.join("target/staticlib"),
    };
    let library = folder.join("libmiss_chance.a");
    println!("cargo::rerun-if-changed={}", library.display());
    if library.is_file() {
        println!("cargo::rustc-link-search=native={}", folder.display());
        println!("cargo::rustc-link-lib=static=miss_chance");
    } else {
        println!(
            "cargo::error=the library {} is not there: run `tools/build.sh miss_chance` at the root of \
             the judge's repository, which proves and writes target/staticlib/libmiss_chance.a, or \
             set {VARIABLE} to the folder that has it",
            library.display()
        );
    }
    Ok(())
}
