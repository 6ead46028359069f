//! Lays the original tree out in `OUT_DIR`, unchanged, adds what it names but
//! does not bring (see `shims/`), and builds it as the crate `asabr`.
//!
//! It is a crate of its own because its files name their modules and macros
//! from the crate root, and rustc is called here because Cargo takes no crate
//! root from `OUT_DIR`.

use std::path::{Path, PathBuf};
use std::process::Command;
use std::{env, fs, io};

/// Beside the repository, seen from this package's folder.
const DEFAULT_SOURCE: &str = "../../shared/docs/src";

/// Files that are kept whole under `NAME/original.rs` and included from a shim
/// of the old name, so that a child module can see their private fields.
const WITH_PRIVATE_LISTS: [&str; 3] = ["seg", "pseg", "poly_seg"];

fn main() -> io::Result<()> {
    let package = PathBuf::from(variable("CARGO_MANIFEST_DIR"));
    let out = PathBuf::from(variable("OUT_DIR"));
    let source = source_folder(&package).join("asabr/src");
    if !source.is_dir() {
        panic!(
            "no original source at {}: set ASABR_SRC to the folder that holds asabr/src",
            source.display()
        );
    }

    let tree = out.join("asabr");
    lay_out(&source, &package.join("shims"), &tree)?;
    compile(&tree.join("lib.rs"), &out)?;

    println!("cargo::rustc-link-search={}", out.display());
    println!("cargo::rerun-if-env-changed=ASABR_SRC");
    println!("cargo::rerun-if-env-changed=ASABR_WRAP");
    println!("cargo::rerun-if-changed=build.rs");
    println!("cargo::rerun-if-changed=shims");
    println!("cargo::rerun-if-changed={}", source.display());
    Ok(())
}

fn variable(name: &str) -> String {
    env::var(name).unwrap_or_else(|_| panic!("cargo sets {name}"))
}

fn source_folder(package: &Path) -> PathBuf {
    match env::var_os("ASABR_SRC") {
        Some(given) => PathBuf::from(given),
        None => package.join(DEFAULT_SOURCE),
    }
}

fn lay_out(source: &Path, shims: &Path, tree: &Path) -> io::Result<()> {
    if tree.exists() {
        fs::remove_dir_all(tree)?;
    }
    copy_folder(source, tree)?;
    for name in WITH_PRIVATE_LISTS {
        set_aside(&tree.join("contact_manager/segmentation"), name)?;
    }
    copy_folder(shims, tree)
}

/// Reads and writes instead of `fs::copy`: the source may be read-only, and its
/// copy must be replaceable at the next build.
fn copy_folder(from: &Path, to: &Path) -> io::Result<()> {
    fs::create_dir_all(to)?;
    for entry in fs::read_dir(from)? {
        let entry = entry?;
        let target = to.join(entry.file_name());
        if entry.file_type()?.is_dir() {
            copy_folder(&entry.path(), &target)?;
        } else {
            fs::write(target, fs::read(entry.path())?)?;
        }
    }
    Ok(())
}

fn set_aside(folder: &Path, name: &str) -> io::Result<()> {
    fs::create_dir_all(folder.join(name))?;
    fs::rename(
        folder.join(name).with_extension("rs"),
        folder.join(name).join("original.rs"),
    )
}

/// One build of the original is compared: manual queueing on, the other
/// features off. Overflows are checked, so that a sum that passes its type is
/// told apart from an answer; `ASABR_WRAP=1` shows the other behaviour.
fn compile(root: &Path, out: &Path) -> io::Result<()> {
    let checks = match env::var_os("ASABR_WRAP") {
        Some(_) => "off",
        None => "on",
    };
    let status = Command::new(variable("RUSTC"))
        .args(["--crate-name", "asabr", "--crate-type", "rlib"])
        .args(["--edition", "2024", "--cap-lints", "allow"])
        .args(["--cfg", "feature=\"manual_queueing\""])
        .arg(format!("-Copt-level={}", variable("OPT_LEVEL")))
        .arg(format!("-Coverflow-checks={checks}"))
        .arg("--out-dir")
        .arg(out)
        .arg(root)
        .status()?;
    if !status.success() {
        panic!("the original tree does not build");
    }
    Ok(())
}
