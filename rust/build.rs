//! Finds the static library that `./library` makes, and links it.

use std::path::{Path, PathBuf};
use std::{env, fs};

/// Where `./library` leaves it, seen from this package's folder.
const DEFAULT_FOLDER: &str = "../target/staticlib";

const FILE: &str = "libhowrekano.a";

/// An object file's first bytes, and where its processor's number stands.
const ELF: &[u8] = b"\x7fELF";
const MACHINE: usize = 18;

fn main() {
    let package = PathBuf::from(env::var_os("CARGO_MANIFEST_DIR").unwrap_or_default());
    let folder = match env::var_os("HOWREKANO_LIB") {
        Some(given) => PathBuf::from(given),
        None => package.join(DEFAULT_FOLDER),
    };
    let file = folder.join(FILE);
    println!("cargo::rerun-if-env-changed=HOWREKANO_LIB");
    println!("cargo::rerun-if-changed={}", file.display());
    match fault(&file) {
        Some(what) => println!(
            "cargo::error={} {what}: run ./library in this package's folder (it needs the Rattle \
             kit), or set HOWREKANO_LIB to the folder that holds {FILE}",
            file.display()
        ),
        None => {
            println!("cargo::rustc-link-search=native={}", folder.display());
            println!("cargo::rustc-link-lib=static=howrekano");
        }
    }
}

/// What is wrong with the library, where something is.
fn fault(file: &Path) -> Option<&'static str> {
    let Ok(archive) = fs::read(file) else {
        return Some("is not there");
    };
    let wanted = match env::var("CARGO_CFG_TARGET_ARCH").as_deref() {
        Ok("x86_64") => 62,
        Ok("aarch64") => 183,
        // Left to the linker.
        _ => return None,
    };
    match machine(&archive) {
        Some(found) if found == wanted => None,
        Some(_) => Some("is compiled for another processor"),
        None => Some("holds no object file"),
    }
}

/// The processor of the archive's first object file.
fn machine(archive: &[u8]) -> Option<u16> {
    let start = archive.windows(ELF.len()).position(|bytes| bytes == ELF)?;
    let number = archive.get(start + MACHINE..start + MACHINE + 2)?;
    Some(u16::from_le_bytes([number[0], number[1]]))
}
