//! Compiles the peers in C at -O3, once with each of gcc and clang that is on this machine. One that is there but cannot
//! compile for the target ends the build: a peer must not be missing unseen.

use std::path::{Path, PathBuf};
use std::process::Command;
use std::{env, process};

const FILES: [&str; 2] = ["receiver", "frames"];

const LEVEL: &str = "-O3";

fn main() {
    println!("cargo:rerun-if-changed=c");
    println!("cargo:rerun-if-changed=../../include");
    println!("cargo:rerun-if-env-changed=PATH");
    let out = env::var("OUT_DIR").unwrap_or_default();
    let mut found = Vec::new();
    for (name, words) in compilers() {
        if let Some(file) = file_of(&words[0]) {
            println!("cargo:rerun-if-changed={}", file.display());
        }
        if let Some(version) = version(&words[0]) {
            compile(name, &words, Path::new(&out));
            println!("cargo:rustc-cfg=peer_{name}");
            found.push(format!("{version} at {LEVEL}"));
        }
    }
    if found.is_empty() {
        eprintln!("The benchmark needs gcc or clang for its peer in C, and neither is on this machine.");
        process::exit(1);
    }
    println!("cargo:rustc-link-search=native={out}");
    let rustc = version(&env::var("RUSTC").unwrap_or_default()).unwrap_or_default();
    // Cargo before 1.80 does not know this line, and warns of it.
    if minor_version(&rustc) >= Some(80) {
        println!("cargo:rustc-check-cfg=cfg(peer_gcc, peer_clang)");
    }
    let level = env::var("OPT_LEVEL").unwrap_or_default();
    println!(
        "cargo:rustc-env=BENCH_COMPILERS={rustc} at level {level}, {}",
        found.join(", ")
    );
}

/// The first line of what a compiler says of itself, where it is on this machine.
fn version(compiler: &str) -> Option<String> {
    let said = Command::new(compiler).arg("--version").output().ok()?;
    let said = String::from_utf8_lossy(&said.stdout).into_owned();
    said.lines().next().map(str::to_string)
}

/// The second number of a version.
fn minor_version(said: &str) -> Option<u32> {
    said.split('.').nth(1)?.parse().ok()
}

/// Where a command stands, so that another one of that name is seen.
fn file_of(command: &str) -> Option<PathBuf> {
    let folders = env::var_os("PATH")?;
    let mut files = env::split_paths(&folders).map(|folder| folder.join(command));
    files.find(|file| file.is_file())
}

/// The compilers, each by the words of its command.
fn compilers() -> [(&'static str, Vec<String>); 2] {
    let arch = env::var("CARGO_CFG_TARGET_ARCH").unwrap_or_default();
    if env::var("HOST") == env::var("TARGET") {
        [("gcc", vec!["gcc".into()]), ("clang", vec!["clang".into()])]
    } else {
        let gcc = vec![format!("{arch}-linux-gnu-gcc")];
        let clang = vec!["clang".into(), format!("--target={arch}-linux-gnu")];
        [("gcc", gcc), ("clang", clang)]
    }
}

fn compile(name: &str, words: &[String], out: &Path) {
    let mut objects = Vec::new();
    for file in FILES {
        let object = out.join(format!("{name}_{file}.o"));
        run(Command::new(&words[0])
            .args(&words[1..])
            .args([
                "-std=c11",
                LEVEL,
                "-fPIC",
                "-Wall",
                "-Wextra",
                "-Werror",
                "-I../../include",
                "-c",
            ])
            .arg(format!("-DPEER={name}"))
            .arg(format!("c/{file}.c"))
            .arg("-o")
            .arg(&object));
        objects.push(object);
    }
    let archive = out.join(format!("libpeer_{name}.a"));
    // A first run has nothing to remove.
    let _ = std::fs::remove_file(&archive);
    run(Command::new("ar").arg("crs").arg(&archive).args(&objects));
    println!("cargo:rustc-link-lib=static=peer_{name}");
}

fn run(command: &mut Command) {
    if !command.status().map_or(false, |status| status.success()) {
        eprintln!("{command:?} failed");
        process::exit(1);
    }
}
