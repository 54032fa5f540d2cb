//! Links the proved archive, libhoidrul.a, which `rt lib` makes in the folder crates/hoidrul.
//!
//! It is looked for in the folder named by the environment variable HOIDRUL_LIB_DIR, as an absolute
//! path or one from this package's folder; if that is not set, in crates/hoidrul/out of the
//! repository. Without an archive, or for a target that no archive is for, the build stops here, for
//! whatever command, with what to do: a build script cannot tell checking from building, and a
//! linker's words are no help. Set to nothing, the variable says that no archive is wanted, which
//! serves `cargo check` and `cargo doc`.
use std::env;
use std::path::PathBuf;

/// How to do without an archive.
const WITHOUT: &str = "to check or document without an archive, set HOIDRUL_LIB_DIR to nothing";

fn main() {
    println!("cargo::rerun-if-env-changed=HOIDRUL_LIB_DIR");
    let named = env::var_os("HOIDRUL_LIB_DIR").unwrap_or("../../crates/hoidrul/out".into());
    let package = PathBuf::from(env::var_os("CARGO_MANIFEST_DIR").expect("cargo sets it"));
    let folder = package.join(&named);
    // For the tests. Cargo passes it on to them, so it needs a name of its own.
    println!("cargo::rustc-env=HOIDRUL_ARCHIVE_DIR={}", folder.display());
    if named.is_empty() {
        return;
    }
    let archive = folder.join("libhoidrul.a");
    println!("cargo::rerun-if-changed={}", archive.display());
    let target = env::var("TARGET").expect("cargo sets it");
    if !is_for_target() {
        println!("cargo::error=libhoidrul.a is for x86-64 Linux and not for {target} ({WITHOUT})");
    } else if !archive.exists() {
        println!(
            "cargo::error=there is no {}: run rt lib in crates/hoidrul of the repository, or name \
             the archive's folder in HOIDRUL_LIB_DIR ({WITHOUT})",
            archive.display()
        );
    }
    println!("cargo::rustc-link-search=native={}", folder.display());
    println!("cargo::rustc-link-lib=static=hoidrul");
}

/// Whether the archive's objects are for the target. Its C library does not matter, but with
/// pointers of 32 bits, which x86-64 can have too, a call would pass other arguments.
fn is_for_target() -> bool {
    let is = |name: &str, value: &str| env::var(name).is_ok_and(|found| found == value);
    is("CARGO_CFG_TARGET_ARCH", "x86_64")
        && is("CARGO_CFG_TARGET_OS", "linux")
        && is("CARGO_CFG_TARGET_POINTER_WIDTH", "64")
}
