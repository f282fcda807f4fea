//! Links the archive of the proved core: `libent_c.a` and the kit's `liblibc_c.a`, which stand in the folder that
//! `ENTANGLE_ARCHIVE` names; else in `../archive`, where `tools/archive` leaves them. An archive of another version
//! than this crate's is refused.

use std::path::{Path, PathBuf};
use std::{env, fs, process};

fn main() {
    println!("cargo::rerun-if-env-changed=ENTANGLE_ARCHIVE");
    let folder = match env::var_os("ENTANGLE_ARCHIVE") {
        Some(folder) => PathBuf::from(folder),
        None => PathBuf::from(env::var_os("CARGO_MANIFEST_DIR").expect("cargo sets it")).join("../archive"),
    };
    for name in ["libent_c.a", "liblibc_c.a", "version"] {
        let file = folder.join(name);
        println!("cargo::rerun-if-changed={}", file.display());
        if !file.is_file() {
            refuse(&format!("{} isn't there; tools/archive builds it, see docs/EMBEDDING.md", file.display()));
        }
    }
    compare_versions(&folder);
    println!("cargo::rustc-link-search=native={}", folder.display());
    println!("cargo::rustc-link-lib=static=ent_c");
    println!("cargo::rustc-link-lib=static=libc_c");
}

/// Compares the number of the archive's version with this crate's.
fn compare_versions(folder: &Path) {
    let wanted = env::var("CARGO_PKG_VERSION").expect("cargo sets it");
    let line = fs::read_to_string(folder.join("version")).unwrap_or_default();
    let found = line.split([',', '\n']).next().unwrap_or_default();
    if found != wanted {
        let at = folder.display();
        refuse(&format!("the library in {at} is of version {found}, and this crate of {wanted}: build it anew"));
    }
}

/// Ends the build with a sentence.
fn refuse(sentence: &str) -> ! {
    println!("cargo::error={sentence}");
    process::exit(1);
}
