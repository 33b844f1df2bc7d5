//! Finds or builds the proved library and links it: from the folder that MVHASHMAP_C_LIB names,
//! or else from the repository's crates/mvhashmap_c/out, where `rt lib` in crates/mvhashmap_c puts it.

use std::env;
use std::path::{Path, PathBuf};
use std::process::Command;

const LIBRARY: &str = "mvhashmap_c";
const FOLDER: &str = "MVHASHMAP_C_LIB";

fn main() {
    println!("cargo:rerun-if-changed=build.rs");
    println!("cargo:rerun-if-env-changed={FOLDER}");
    let folder = match env::var_os(FOLDER) {
        Some(folder) => given(PathBuf::from(folder)),
        None => built(),
    };
    println!("cargo:rustc-link-search=native={}", folder.display());
    println!("cargo:rustc-link-lib=static={LIBRARY}");
}

fn archive(folder: &Path) -> PathBuf {
    folder.join(format!("lib{LIBRARY}.a"))
}

fn given(folder: PathBuf) -> PathBuf {
    let file = archive(&folder);
    if !file.is_file() {
        fail(&format!("{FOLDER} is set, but there is no {}", file.display()));
    }
    println!("cargo:rerun-if-changed={}", file.display());
    folder
}

/// Proves and compiles the library. The archive itself is no reason to run again, since this
/// writes it; the proved sources are.
fn built() -> PathBuf {
    let root = Path::new(&env::var_os("CARGO_MANIFEST_DIR").unwrap()).join("../..");
    let crates = root.join("crates");
    println!("cargo:rerun-if-changed={}", root.join("crates.txt").display());
    for source in sources(&crates) {
        println!("cargo:rerun-if-changed={}", source.display());
    }
    let crate_folder = crates.join(LIBRARY);
    let said = Command::new("rt").arg("lib").current_dir(&crate_folder).output();
    match said {
        Ok(said) if said.status.success() => crate_folder.join("out"),
        Ok(said) => {
            let out = String::from_utf8_lossy(&said.stdout);
            let err = String::from_utf8_lossy(&said.stderr);
            fail(&format!("`rt lib` in crates/{LIBRARY} failed ({}):\n{out}{err}", said.status))
        }
        Err(error) => fail(&format!(
            "cannot run `rt` ({error}). The Rattle kit builds the proved library; without it, \
             set {FOLDER} to a folder that has lib{LIBRARY}.a"
        )),
    }
}

/// The proved sources: each crate's folders but out, which rt writes.
fn sources(crates: &Path) -> Vec<PathBuf> {
    let mut found = Vec::new();
    for one in crates.read_dir().into_iter().flatten().flatten() {
        for name in ["src", "specs", "proofs"] {
            let folder = one.path().join(name);
            if folder.is_dir() {
                found.push(folder);
            }
        }
    }
    found
}

fn fail(message: &str) -> ! {
    eprintln!("proved_mvhashmap: {message}");
    std::process::exit(1)
}
