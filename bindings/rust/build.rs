//! Links libm17.a: from the folder that `OKIHEMON_LIB` names, else from where `bindings/library` writes it.
use std::{
    env,
    path::PathBuf,
    process::{exit, Command},
};

fn main() {
    println!("cargo:rerun-if-env-changed=OKIHEMON_LIB");
    let target = env::var("TARGET").unwrap_or_default();
    if env::var_os("OKIHEMON_LIB").is_none() && (!target.starts_with("x86_64-") || !target.contains("linux")) {
        stop(&format!(
            "libm17.a is for x86-64 Linux, and this build is for {target}; OKIHEMON_LIB may name a folder with one for it"
        ));
    }
    let repository = PathBuf::from(concat!(env!("CARGO_MANIFEST_DIR"), "/../../target/staticlib"));
    let folder = env::var_os("OKIHEMON_LIB").map_or(repository, PathBuf::from);
    let folder = folder.canonicalize().unwrap_or(folder);
    let archive = folder.join("libm17.a");
    if !archive.is_file() {
        stop(&format!(
            "{} is not there: run `bindings/library` in the repository, which writes it for x86-64 Linux, \
             or name its folder in OKIHEMON_LIB",
            archive.display()
        ));
    }
    println!("cargo:rerun-if-changed={}", archive.display());
    println!("cargo:rustc-link-search=native={}", folder.display());
    println!("cargo:rustc-link-lib=static=m17");
    let minor = minor();
    if minor >= 80 {
        println!("cargo:rustc-check-cfg=cfg(core_error)");
    }
    // `core::error::Error` came with Rust 1.81: only there is a refusal one.
    if minor >= 81 {
        println!("cargo:rustc-cfg=core_error");
    }
}

/// The compiler's version: 63 for 1.63, and 0 where it does not say.
fn minor() -> u32 {
    let compiler = env::var_os("RUSTC").unwrap_or_else(|| "rustc".into());
    let said = Command::new(compiler).arg("--version").output();
    let said = said.map(|output| output.stdout).unwrap_or_default();
    let text = String::from_utf8_lossy(&said);
    text.split('.').nth(1).and_then(|minor| minor.parse().ok()).unwrap_or(0)
}

fn stop(why: &str) -> ! {
    eprintln!("okihemon: {why}");
    exit(1);
}
