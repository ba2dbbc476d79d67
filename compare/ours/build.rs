//! Links the static library (`cfg(linked)`): that of `bindings/library` on x86-64, which it is for, or with NATIVE=yes the
//! one that `bench/native` has written for this processor. Else it goes into a bridge, a program that an emulator runs.
use std::{env, fs, path::PathBuf, process::Command};

fn main() {
    println!("cargo:rustc-check-cfg=cfg(linked)");
    println!("cargo:rerun-if-env-changed=NATIVE");
    let native = env::var("NATIVE").is_ok_and(|word| word == "yes");
    let target = concat!(env!("CARGO_MANIFEST_DIR"), "/../../target");
    let folder = &format!("{target}/{}", if native { "native" } else { "staticlib" });
    println!("cargo:rerun-if-changed={folder}/libm17.a");
    if native || env::var("CARGO_CFG_TARGET_ARCH").unwrap() == "x86_64" {
        println!("cargo:rustc-cfg=linked");
        println!("cargo:rustc-link-search=native={folder}");
        println!("cargo:rustc-link-lib=static=m17");
    } else {
        bridge(folder);
    }
}

fn bridge(folder: &str) {
    for file in ["bridge.c", "src/c.rs", "types", "../../include/m17.h"] {
        println!("cargo:rerun-if-changed={file}");
    }
    let out = PathBuf::from(env::var_os("OUT_DIR").unwrap());
    fs::write(out.join("functions.h"), functions()).unwrap();
    let program = out.join("bridge");
    let done = Command::new("clang")
        .args(["--target=x86_64-linux-gnu", "-O2", "-ffreestanding", "-fno-stack-protector", "-fuse-ld=lld"])
        .args(["-nostdlib", "-static", "-no-pie", "bridge.c", "-I", "types", "-I", "../../include", "-I"])
        .arg(&out)
        .arg(format!("{folder}/libm17.a"))
        .arg("-o")
        .arg(&program)
        .status();
    assert!(done.is_ok_and(|status| status.success()), "the bridge to the static library is not built");
    println!("cargo:rustc-env=BRIDGE={}", program.display());
}

/// The names of the functions that `c.rs` declares, in its order, for the bridge's table. The receiver's two come after,
/// with their structs behind pointers.
fn functions() -> String {
    let declared = fs::read_to_string("src/c.rs").unwrap();
    let names = declared.lines().filter_map(|line| line.trim().strip_prefix("fn m17_")?.split('(').next());
    names
        .map(|name| format!("m17_{name}"))
        .chain(["receiver_new".into(), "receive".into()])
        .map(|name| format!("F({name})\n"))
        .collect()
}
