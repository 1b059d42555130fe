//! Finds the archive that `host/archive` makes, and has it linked. It is taken only if it is of what lies here: its sources
//! and the header must be those that it was made of. One of another major version is not taken either; the linker would see
//! it too, but for a rustc of some years ago, which drops the reference that the library keeps.
//!
//! What is linked is a copy in cargo's own folder for this build. A path of its own there cargo keeps right where a checkout
//! is copied with all that was built in it; of any other it would go on linking the first checkout's archive.

use std::path::Path;
use std::{env, fs, process};

fn main() {
    let arch = env::var("CARGO_CFG_TARGET_ARCH").unwrap_or_default();
    // x32 is named x86_64 too, and its pointers and lengths are not those of the archive.
    if env::var("CARGO_CFG_TARGET_POINTER_WIDTH").as_deref() != Ok("64") {
        eprintln!("The archive is for machines whose pointers have 64 bits, and not for x32.");
        process::exit(1);
    }
    let folder = match arch.as_str() {
        "x86_64" => "target/staticlib".to_string(),
        other => format!("target/staticlib/{other}"),
    };
    // The folder of this package as it is now, and not as it was when this program was compiled.
    let package = env::var("CARGO_MANIFEST_DIR").unwrap_or_default();
    let archive = format!("{folder}/libwallbox.a");
    let out = env::var("OUT_DIR").unwrap_or_default();
    if let Err(fault) = taken(&Path::new(&package).join(".."), &folder, Path::new(&out)) {
        eprintln!("The archive {archive} {fault}.");
        let word = if arch == "x86_64" { "" } else { " aarch64" };
        eprintln!("Make it, from the repository's root, {package}/..: host/archive{word}");
        process::exit(1);
    }
    if arch != "x86_64" {
        println!(
            "cargo:warning=this archive is proved and compiled for {arch} as it is for x86-64, but no test of its \
             repository runs it there"
        );
    }
    println!("cargo:rustc-link-search=native={out}");
    println!("cargo:rustc-link-lib=static=wallbox");
}

/// Copies the archive of a folder, if it is of what lies below the root. What is wrong with it, if it is not.
fn taken(root: &Path, folder: &str, out: &Path) -> Result<(), String> {
    let archive = octets(root, &format!("{folder}/libwallbox.a")).ok_or("is not there")?;
    let made = octets(root, &format!("{folder}/libwallbox.made")).ok_or("has no libwallbox.made beside it")?;
    for line in String::from_utf8_lossy(&made).lines() {
        let file = line.splitn(3, ' ').nth(2).unwrap_or_default();
        let now = octets(root, file).map(|octets| format!("{} {} {file}", checksum(&octets), octets.len()));
        if now.as_deref() != Some(line) {
            return Err(format!("was made of something else: {file} has changed since"));
        }
    }
    let symbol = concat!("pik_version_", env!("CARGO_PKG_VERSION_MAJOR"));
    if !has(&archive, format!("{symbol}\0").as_bytes()) {
        return Err(format!("is of another version: it has no {symbol}"));
    }
    fs::write(out.join("libwallbox.a"), archive)
        .map_err(|error| format!("cannot be copied to {}: {error}", out.display()))
}

/// What a file below the root holds, if it can be read. Cargo looks there again before each build; a path that it is told
/// is from this package on.
fn octets(root: &Path, file: &str) -> Option<Vec<u8>> {
    println!("cargo:rerun-if-changed=../{file}");
    fs::read(root.join(file)).ok()
}

fn has(octets: &[u8], name: &[u8]) -> bool {
    octets.windows(name.len()).any(|part| part == name)
}

/// The checksum of POSIX's `cksum`: the CRC of the octets and of their count, lowest octet first.
fn checksum(octets: &[u8]) -> u32 {
    let rests = (0..).map(|place| octets.len() as u64 >> (8 * place));
    let count = rests.take_while(|rest| *rest > 0).map(|rest| rest as u8);
    let step = |crc: u32| (crc << 1) ^ if crc >> 31 == 1 { 0x04c1_1db7 } else { 0 };
    let taken = |crc: u32, octet: u8| (0..8).fold(crc ^ u32::from(octet) << 24, |crc, _| step(crc));
    !octets.iter().copied().chain(count).fold(0, taken)
}
