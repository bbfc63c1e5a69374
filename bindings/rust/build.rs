//! Finds libsim7000.a: in the folder that SIM7000_LIB names, whole or from here, else where `rt
//! lib` in crates/sim7000 writes it. Tells the crate what its compiler has.
use std::path::Path;
use std::process::Command;

fn main() {
    println!("cargo:rerun-if-env-changed=SIM7000_LIB");
    let target = |name: &str| std::env::var(format!("CARGO_CFG_TARGET_{}", name)).unwrap_or_default();
    if target("ARCH") != "x86_64" || target("POINTER_WIDTH") != "64" || target("OS") == "windows" {
        let asked = std::env::var("TARGET").unwrap_or_default();
        stop(&format!(
            "libsim7000.a is for x86-64 Linux, not for {}: \
             build with --target x86_64-unknown-linux-gnu, as bindings/test-rust does",
            asked
        ));
    }
    let made = "../../crates/sim7000/out";
    let named = std::env::var_os("SIM7000_LIB").unwrap_or_else(|| made.into());
    let folder = Path::new(env!("CARGO_MANIFEST_DIR")).join(named);
    let archive = folder.join("libsim7000.a");
    println!("cargo:rerun-if-changed={}", archive.display());
    if !archive.is_file() {
        let how = "run 'rt lib' in crates/sim7000, or name its folder in SIM7000_LIB";
        stop(&format!("no libsim7000.a in {}: {}", folder.display(), how));
    }
    println!("cargo:rustc-link-search=native={}", folder.display());
    println!("cargo:rustc-link-lib=static=sim7000");
    tell_compiler();
}

fn stop(why: &str) -> ! {
    eprintln!("{}", why);
    std::process::exit(1);
}

/// `core::error::Error` is there from 1.81 on. From 1.80 on the compiler wants to know a cfg's name; Cargo before that complains of the telling.
fn tell_compiler() {
    let minor = minor_version().unwrap_or(0);
    if minor >= 80 {
        println!("cargo:rustc-check-cfg=cfg(has_core_error)");
    }
    if minor >= 81 {
        println!("cargo:rustc-cfg=has_core_error");
    }
}

/// Of `rustc 1.63.0 (...)` the 63.
fn minor_version() -> Option<u32> {
    let said = Command::new(std::env::var_os("RUSTC")?).arg("--version").output().ok()?;
    String::from_utf8(said.stdout).ok()?.split('.').nth(1)?.parse().ok()
}
