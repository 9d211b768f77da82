//! Links libboardtime_lib.a, libboardtime_uplink.a and libboardtime_dates.a from
//! the folder in BOARDTIME_LIB_DIR, or else each from where `rt lib` writes it: the
//! folder out/ of its crate, as crates/boardtime_lib/out. Refuses every target but
//! the one that the archives are for.

use std::env;
use std::path::{Path, PathBuf};
use std::process;

const FOLDER: &str = "BOARDTIME_LIB_DIR";
/// Each is the archive lib...a, and the name of its crate.
const ARCHIVES: [&str; 3] = ["boardtime_lib", "boardtime_uplink", "boardtime_dates"];
/// What cargo says of x86-64 Linux. The width of a pointer tells it from x32.
const TARGET: [(&str, &str); 3] = [
    ("CARGO_CFG_TARGET_ARCH", "x86_64"),
    ("CARGO_CFG_TARGET_OS", "linux"),
    ("CARGO_CFG_TARGET_POINTER_WIDTH", "64"),
];

fn main() {
    println!("cargo:rerun-if-env-changed={FOLDER}");
    if TARGET.iter().any(|(name, value)| variable(name) != *value) {
        refuse(&format!(
            "the archives are for x86-64 Linux alone, and this build is for {}",
            variable("TARGET")
        ));
    }
    for name in ARCHIVES {
        link(name);
    }
}

fn link(name: &str) {
    let folder = folder(name);
    let archive = folder.join(format!("lib{name}.a"));
    println!("cargo:rerun-if-changed={}", archive.display());
    if !archive.is_file() {
        refuse(&format!(
            "{} does not exist: run `rt lib` in crates/{name}, or name its folder in {FOLDER}",
            archive.display()
        ));
    }
    println!("cargo:rustc-link-search=native={}", folder.display());
    println!("cargo:rustc-link-lib=static={name}");
}

/// A relative path begins at the folder of this package.
fn folder(name: &str) -> PathBuf {
    let named = env::var_os(FOLDER).unwrap_or_else(|| format!("../crates/{name}/out").into());
    Path::new(&variable("CARGO_MANIFEST_DIR")).join(named)
}

/// A variable that cargo sets for every build script.
fn variable(name: &str) -> String {
    env::var(name).unwrap_or_else(|_| panic!("cargo sets {name}"))
}

fn refuse(why: &str) -> ! {
    eprintln!("{why}");
    process::exit(1);
}
