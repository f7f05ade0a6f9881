//! Says where the static library of `crates/rap_c` and the kit's memory functions are linked from.
//!
//! `RAP_LIB` is the folder of `librap_c.a`. Without it the library is `lib/librap.a` of this package, which a release
//! carries with the memory functions in it, or else that of `crates/rap_c/out` of the repository in which this package
//! stands. `RATTLE_KIT` is the kit's folder, if `liblibc_c.a` is not in the folder of `librap_c.a` too. A relative folder
//! is taken from the one in which cargo was called.
//!
//! Documentation and checks need no library: if there is none, only what is linked fails.
use std::env;
use std::path::{Path, PathBuf};

/// The folder of cargo's process, which starts this program in the folder of the package.
#[cfg(unix)]
fn folder_of_cargo() -> Option<PathBuf> {
    std::fs::read_link(format!("/proc/{}/cwd", std::os::unix::process::parent_id())).ok()
}

#[cfg(not(unix))]
fn folder_of_cargo() -> Option<PathBuf> {
    None
}

/// The folder in which cargo was called.
fn called_in() -> PathBuf {
    folder_of_cargo().or_else(|| env::var_os("PWD").map(PathBuf::from)).unwrap_or_default()
}

/// The folder that a variable names.
fn folder(variable: &str) -> Option<PathBuf> {
    println!("cargo::rerun-if-env-changed={variable}");
    let named = env::var_os(variable).filter(|it| !it.is_empty())?;
    Some(called_in().join(named))
}

/// Has a static library of a folder linked. Returns whether it is there.
fn link(folder: &Path, name: &str) -> bool {
    let file = folder.join(format!("lib{name}.a"));
    println!("cargo::rerun-if-changed={}", file.display());
    println!("cargo::rustc-link-search=native={}", folder.display());
    println!("cargo::rustc-link-lib=static={name}");
    file.is_file()
}

fn main() {
    let target = |what: &str| env::var(format!("CARGO_CFG_TARGET_{what}")).unwrap_or_default();
    if (target("ARCH"), target("OS"), target("POINTER_WIDTH")) != ("x86_64".into(), "linux".into(), "64".into()) {
        let name = env::var("TARGET").unwrap_or_default();
        println!(
            "cargo::error=ra_ap_parser is built for Linux on x86-64 alone, not for {name}: build its repository from \
             source with the Rattle kit there"
        );
        return;
    }
    let here = PathBuf::from(env::var_os("CARGO_MANIFEST_DIR").expect("cargo names this folder"));
    let named = folder("RAP_LIB");
    if named.is_none() && here.join("lib/librap.a").is_file() {
        link(&here.join("lib"), "rap");
        return;
    }
    let library = named.unwrap_or_else(|| here.join("../../crates/rap_c/out"));
    let kit = folder("RATTLE_KIT").map(|it| it.join("c")).unwrap_or_else(|| library.clone());
    let is_quiet = env::var_os("DOCS_RS").is_some();
    if !link(&library, "rap_c") && !is_quiet {
        let at = library.display();
        println!(
            "cargo::warning=no librap_c.a in {at}: to link, run `rt lib` in crates/rap_c, or set RAP_LIB to its folder"
        );
    }
    if !link(&kit, "libc_c") && !is_quiet {
        let at = kit.display();
        println!("cargo::warning=no liblibc_c.a in {at}: to link, set RATTLE_KIT to $(dirname \"$(rt doc)\")");
    }
}
