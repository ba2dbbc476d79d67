//! Finds m17core's files and names them as modules, where they stand: they are never copied.
use std::{env, fs, path::PathBuf};

const PRIVATE: [&str; 6] = ["bits", "decode", "encode", "fec", "interleave", "random"];
const PUBLIC: [&str; 3] = ["address", "crc", "protocol"];

fn main() {
    println!("cargo:rerun-if-env-changed=M17CORE_SRC");
    let beside = || PathBuf::from(env::var("CARGO_MANIFEST_DIR").unwrap()).join("../../../shared/docs/src/src");
    let folder = env::var_os("M17CORE_SRC").map(PathBuf::from).unwrap_or_else(beside);
    let mut modules = String::new();
    for (visible, names) in [("", &PRIVATE[..]), ("pub ", &PUBLIC[..])] {
        for name in names {
            let file = folder.join(name).with_extension("rs");
            let file = file
                .canonicalize()
                .unwrap_or_else(|why| panic!("m17core's text is not at hand: {}: {why}", file.display()));
            println!("cargo:rerun-if-changed={}", file.display());
            modules += &format!("#[path = {file:?}]\n{visible}mod {name};\n");
        }
    }
    let out = PathBuf::from(env::var_os("OUT_DIR").unwrap());
    fs::write(out.join("modules.rs"), modules).unwrap();
}
