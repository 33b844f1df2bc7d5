//! Declares the three old files as modules by their own path, so that they are compiled as they
//! lie, once their sha256 shows that they are the ones that were handed over.

mod sha256;

use std::{env, fs, path::Path, path::PathBuf};

/// Names the folder in place of the default; a relative one starts at the repository's root.
const VARIABLE: &str = "MVHASHMAP_SRC";
const DEFAULT: &str = "../shared/docs/src";
const BELOW: &str = "aptos-move/mvhashmap/src";

const FILES: [(&str, &str); 3] = [
    ("types", "a7d8260844cf4203579cbf7803f041ab902fcb859bdd71787d1dc3ae0863bf1b"),
    ("versioned_data", "ec4a26f72802994a12c8d34390800defabc9b0a304aac6e43ba6787c53ffc354"),
    ("versioned_group_data", "9e61e1d9f026a52ea2fd849cf7f02770aed7872dd34fd968faf845c57bf66a17"),
];

fn main() {
    println!("cargo:rerun-if-env-changed={VARIABLE}");
    println!("cargo:rerun-if-changed=build");
    let folder = handed_over();
    let modules: String = FILES
        .iter()
        .map(|(name, sum)| module(&folder.join(format!("{name}.rs")), name, sum))
        .collect();
    let out = PathBuf::from(env::var("OUT_DIR").expect("cargo gives OUT_DIR"));
    fs::write(out.join("old_files.rs"), modules).expect("OUT_DIR can be written");
}

fn handed_over() -> PathBuf {
    let crate_folder = env::var("CARGO_MANIFEST_DIR").expect("cargo gives CARGO_MANIFEST_DIR");
    let root = Path::new(&crate_folder).join("../..");
    root.join(env::var(VARIABLE).unwrap_or_else(|_| DEFAULT.to_string())).join(BELOW)
}

fn module(path: &Path, name: &str, sum: &str) -> String {
    println!("cargo:rerun-if-changed={}", path.display());
    let bytes = fs::read(path)
        .unwrap_or_else(|error| panic!("{}: {error}; set {VARIABLE}", path.display()));
    let found = sha256::hex(&bytes);
    assert!(found == sum, "{}: sha256 {found}, handed over was {sum}", path.display());
    let whole = path.canonicalize().expect("the file was just read");
    format!("#[allow(warnings, clippy::all)]\n#[path = {whole:?}]\npub mod {name};\n")
}
