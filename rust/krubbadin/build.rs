//! Links libkrubbadin.a, the archive of the proved code: the one that KRUBBADIN_ARCHIVE names, else
//! what `rt lib` wrote in crates/krubbadin, else what tools/host-archive made.

use std::path::{Path, PathBuf};
use std::{env, process};

const NAMED: &str = "KRUBBADIN_ARCHIVE";
const NAME: &str = "libkrubbadin.a";

fn main() {
    // Without these cargo would go on with the old archive when only the archive changed.
    println!("cargo:rerun-if-env-changed={NAMED}");
    let files = match env::var_os(NAMED) {
        Some(file) => vec![PathBuf::from(file)],
        None => made_here(),
    };
    match files.iter().find_map(|file| Some((file, folder_of(file)?))) {
        Some((file, folder)) => {
            println!("cargo:rerun-if-changed={}", file.display());
            println!("cargo:rustc-link-search=native={}", folder.display());
            println!("cargo:rustc-link-lib=static=krubbadin");
        }
        None => {
            let tried: Vec<String> = files
                .iter()
                .map(|file| file.display().to_string())
                .collect();
            eprintln!("krubbadin: there is no {NAME}, the archive of the proved code. Looked at:");
            eprintln!("  {}", tried.join("\n  "));
            eprintln!("Make it with `rt lib --cpu x86-64` in crates/krubbadin (for Arm: tools/host-archive");
            eprintln!("aarch64), or let {NAMED} name one; its file name is {NAME}.");
            process::exit(1);
        }
    }
}

/// Where an archive for the processor may stand in this repository.
fn made_here() -> Vec<PathBuf> {
    let folder = env::var_os("CARGO_MANIFEST_DIR").expect("cargo names the crate's folder");
    let root = Path::new(&folder).join("../..");
    let machine = env::var("CARGO_CFG_TARGET_ARCH").expect("cargo names the processor");
    let mut files = vec![root.join("target/archive").join(&machine).join(NAME)];
    // What rt writes is for x86-64.
    if machine == "x86_64" {
        files.insert(0, root.join("crates/krubbadin/out").join(NAME));
    }
    files
}

fn folder_of(file: &Path) -> Option<PathBuf> {
    let file = file.canonicalize().ok()?;
    let folder = file.parent().map(PathBuf::from);
    folder.filter(|_| file.is_file() && file.ends_with(NAME))
}
