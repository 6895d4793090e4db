//! Finds `libslh.a`: in `$SLH_PREFIX/lib`, where `SLH_PREFIX` is the absolute path of the folder that
//! `tools/library.sh` has installed into, or by pkg-config. `SLH_PREFIX` can also be a release, as the folder `dist/`: then it is the one
//! for the machine that is built for. With the feature `portable`, or where the release has none for that machine, it
//! makes one of the portable C: `$SLH_PREFIX/src/slh.c`, which `tools/library.sh --target portable` installs, or
//! `portable/slh.c` of the release.
//!
//! Documentation and `cargo check` need no library. So if none is named this ends with a warning, and it is the linker
//! that fails.
use std::{
    env,
    path::{Path, PathBuf},
    process::Command,
};

const MISSING: &str = "libslh is not found: set SLH_PREFIX to the absolute path of the folder of tools/library.sh";

/// The folder of the library that pkg-config knows.
fn by_pkg_config() -> Option<PathBuf> {
    let said = Command::new("pkg-config").args(["--variable=libdir", "slh"]).output().ok()?;
    let folder = String::from_utf8(said.stdout).ok()?;
    (said.status.success() && !folder.trim().is_empty()).then(|| PathBuf::from(folder.trim()))
}

/// Runs a program that a variable names, or that of this name.
fn run(variable: &str, name: &str, words: &[&str], files: &[&Path]) {
    let program = env::var(variable).unwrap_or_else(|_| name.to_owned());
    let status = Command::new(&program).args(words).args(files).status();
    assert!(status.is_ok_and(|it| it.success()), "{program} fails: {variable} names another");
}

/// Compiles the portable C, and tells the folder of its archive.
fn compiled(prefix: &Path) -> PathBuf {
    let folder = PathBuf::from(env::var_os("OUT_DIR").expect("cargo names a folder"));
    let source = prefix.join(if is_release(prefix) { "portable/slh.c" } else { "src/slh.c" });
    let (object, archive) = (folder.join("slh.o"), folder.join("libslh.a"));
    assert!(source.is_file(), "there is no {}: run tools/library.sh --target portable", source.display());
    println!("cargo:rerun-if-changed={}", source.display());
    let words = ["-std=c11", "-O2", "-fPIC", "-c"];
    run("CC", "cc", &words, &[&source, Path::new("-I"), &prefix.join("include"), Path::new("-o"), &object]);
    run("AR", "ar", &["crs"], &[&archive, &object]);
    folder
}

/// Whether a folder is a release, as `tools/release.sh` writes it.
fn is_release(prefix: &Path) -> bool {
    prefix.join("BUILD").is_file() && prefix.join("SHA256SUMS").is_file()
}

/// The folder that a release has for the machine that is built for.
fn of_target() -> Option<&'static str> {
    let named = |name: &str| env::var(format!("CARGO_CFG_TARGET_{name}")).unwrap_or_default();
    let is_armv7 = env::var("TARGET").is_ok_and(|it| it.starts_with("armv7") && it.ends_with("eabihf"));
    Some(match (named("OS").as_str(), named("ARCH").as_str()) {
        ("linux", "x86_64") => "x86-64",
        ("linux", "aarch64") => "aarch64",
        ("linux", "riscv64") => "riscv64",
        ("linux", "arm") if is_armv7 => "armv7",
        ("windows", "x86_64") => "windows-x86-64",
        ("macos", "aarch64") => "macos-arm64",
        ("macos", "x86_64") => "macos-x86-64",
        _ => return None,
    })
}

/// The folder of the archive under `SLH_PREFIX`, or of the portable C's.
fn under(prefix: &Path) -> PathBuf {
    let folder = if is_release(prefix) { of_target().map(|it| prefix.join(it)) } else { Some(prefix.join("lib")) };
    let is_there = |it: &PathBuf| !is_release(prefix) || it.join("libslh.a").is_file();
    folder.filter(is_there).unwrap_or_else(|| compiled(prefix))
}

/// The folder of the archive, if one is named. One that is named has to be there.
fn found(prefix: Option<&Path>) -> Option<PathBuf> {
    if env::var_os("CARGO_FEATURE_PORTABLE").is_some() {
        return prefix.map(compiled);
    }
    let folder = prefix.map(under).or_else(by_pkg_config)?;
    let archive = folder.join("libslh.a");
    assert!(archive.is_file(), "there is no {}: SLH_PREFIX has to be an absolute path", archive.display());
    println!("cargo:rerun-if-changed={}", archive.display());
    Some(folder)
}

fn main() {
    for name in ["SLH_PREFIX", "PKG_CONFIG_PATH", "CC", "AR", "DOCS_RS"] {
        println!("cargo:rerun-if-env-changed={name}");
    }
    if env::var_os("DOCS_RS").is_some() {
        return;
    }
    println!("cargo:rustc-link-lib=static=slh");
    match found(env::var_os("SLH_PREFIX").map(PathBuf::from).as_deref()) {
        Some(folder) => println!("cargo:rustc-link-search=native={}", folder.display()),
        None => println!("cargo:warning={MISSING}"),
    }
}
