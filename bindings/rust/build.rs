//! Links libpostscript.a: that of the folder that POSTSCRIPT_LIB_DIR names, or that of the target if it is packed with the crate, or
//! else the one that the Makefile of the C bindings makes.
use std::env;
use std::path::{Path, PathBuf};
use std::process::Command;

fn main() {
    println!("cargo:rerun-if-env-changed=POSTSCRIPT_LIB_DIR");
    let own = PathBuf::from(env::var_os("CARGO_MANIFEST_DIR").expect("cargo sets the folder"));
    let packed = own.join("lib");
    let folder = match env::var_os("POSTSCRIPT_LIB_DIR") {
        Some(folder) => PathBuf::from(folder),
        None if packed.exists() => for_this_target(&packed),
        None => make(&own.join("../c")),
    };
    println!("cargo:rerun-if-changed={}", folder.join("libpostscript.a").display());
    println!("cargo:rustc-link-search=native={}", folder.display());
    println!("cargo:rustc-link-lib=static=postscript");
}

/// Returns a value that cargo sets.
fn value(name: &str) -> String {
    env::var(name).unwrap_or_default()
}

/// Returns the folder of the target's library. The crate has a folder for each target, such as `x86_64-linux`.
fn for_this_target(packed: &Path) -> PathBuf {
    let (processor, system) = (value("CARGO_CFG_TARGET_ARCH"), value("CARGO_CFG_TARGET_OS"));
    let folder = packed.join(format!("{processor}-{system}"));
    if !folder.join("libpostscript.a").exists() {
        eprintln!("postscript-proved: this crate has no library for {processor} and {system}; it has {}", names(packed));
        std::process::exit(1);
    }
    folder
}

/// Lists the names of the folders in a folder.
fn names(folder: &Path) -> String {
    let entries = folder.read_dir().into_iter().flatten().flatten();
    let mut names: Vec<_> = entries.map(|entry| entry.file_name().to_string_lossy().into_owned()).collect();
    names.sort();
    names.join(", ")
}

/// Makes the target's library, and returns its folder.
fn make(c: &Path) -> PathBuf {
    let build = c.canonicalize().expect("the folder of the C bindings").join("build");
    let folder = if value("CARGO_CFG_TARGET_ARCH") == "aarch64" { build.join("aarch64") } else { build };
    let done = Command::new("make")
        .arg("--no-print-directory")
        .arg("-C")
        .arg(c)
        .arg(folder.join("libpostscript.a"))
        .status()
        .expect("make runs");
    assert!(done.success(), "make made no libpostscript.a");
    folder
}
