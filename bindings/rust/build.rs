//! Has the Rattle kit prove the crate `gurthapen_c` and write libgurthapen.a, by bindings/archive, and links that. Where GURTHAPEN_LIBRARY names a
//! folder, the libgurthapen.a in it, which bindings/archive wrote before, is linked instead.

use std::env;
use std::path::{Path, PathBuf};
use std::process::{exit, Command};

fn stop(why: &str) -> ! {
    eprintln!("gurthapen: {why}");
    exit(1)
}

/// The folder of the archive that the kit proves and writes here.
fn proved(root: &Path) -> PathBuf {
    match Command::new(root.join("bindings/archive")).output() {
        Err(e) => stop(&format!("bindings/archive, which has libgurthapen.a proved and built, cannot be run ({e})")),
        Ok(done) if !done.status.success() => {
            eprintln!("{}", String::from_utf8_lossy(&done.stderr));
            stop("bindings/archive failed, so there is nothing to link: what it said stands above")
        }
        Ok(done) => PathBuf::from(String::from_utf8_lossy(&done.stdout).trim_end()),
    }
}

fn main() {
    let here = env::var("CARGO_MANIFEST_DIR").expect("cargo sets CARGO_MANIFEST_DIR");
    let root = match Path::new(&here).join("../..").canonicalize() {
        Ok(root) if root.join("crates.txt").is_file() => root,
        _ => stop("this crate stands in bindings/rust of its repository, beside crates.txt, and builds nothing elsewhere"),
    };
    let of = |what: &str| env::var(format!("CARGO_CFG_TARGET_{what}")).unwrap_or_default();
    if (of("ARCH").as_str(), of("OS").as_str()) != ("x86_64", "linux") {
        stop("the Rattle kit compiles for x86-64 Linux only");
    }
    println!("cargo:rerun-if-changed=build.rs");
    println!("cargo:rerun-if-changed={}", root.join("crates.txt").display());
    // Not crates/ itself: what the kit builds stands below it, in out/.
    for name in std::fs::read_dir(root.join("crates")).expect("crates/ can be read").flatten() {
        for part in ["src", "specs", "proofs"] {
            let folder = name.path().join(part);
            if folder.is_dir() {
                println!("cargo:rerun-if-changed={}", folder.display());
            }
        }
    }
    println!("cargo:rerun-if-env-changed=GURTHAPEN_LIBRARY");

    let folder = match env::var_os("GURTHAPEN_LIBRARY") {
        Some(folder) => PathBuf::from(folder),
        None => proved(&root),
    };
    let archive = folder.join("libgurthapen.a");
    if !archive.is_file() {
        stop(&format!("there is no {}", archive.display()));
    }
    println!("cargo:rerun-if-changed={}", archive.display());
    println!("cargo:rustc-link-search=native={}", folder.display());
    println!("cargo:rustc-link-lib=static=gurthapen");
}
