//! Programs that change what the oracle reads or writes.

use std::os::unix::fs::PermissionsExt;
use std::path::{Path, PathBuf};
use std::process::Output;
use std::{env, fs};

pub const ORACLE: &str = env!("CARGO_BIN_EXE_oracle");

pub fn text(output: &Output) -> String {
    String::from_utf8(output.stdout.clone()).unwrap()
}

/// A script of that name in which ORACLE stands for the oracle.
pub fn wrong_program(name: &str, script: &str) -> PathBuf {
    let path = Path::new(env!("CARGO_TARGET_TMPDIR")).join(name);
    let oracle = env::current_dir().unwrap().join(ORACLE);
    let script = script.replace("ORACLE", oracle.to_str().unwrap());
    fs::write(&path, format!("#!/bin/sh\n{script}\n")).unwrap();
    fs::set_permissions(&path, fs::Permissions::from_mode(0o755)).unwrap();
    path
}
