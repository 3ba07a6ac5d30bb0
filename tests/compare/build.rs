//! Links the proved program's library, unless the second program is compared with itself.
//! HEDRAVOS_LIBRARY may give the archive's path; otherwise it is target/library/libhedravos.a, as tools/library makes it.

use std::env;
use std::path::PathBuf;

fn main() {
    println!("cargo:rerun-if-env-changed=HEDRAVOS_LIBRARY");
    if env::var_os("CARGO_FEATURE_SELF_CHECK").is_some() {
        return;
    }
    let archive = archive();
    println!("cargo:rerun-if-changed={}", archive.display());
    if !archive.is_file() {
        panic!(
            "{} isn't there; run tools/library, set HEDRAVOS_LIBRARY, or use --features self-check",
            archive.display()
        );
    }
    let folder = archive.parent().expect("an archive lies in a folder");
    let file = archive.file_name().unwrap().to_string_lossy();
    let name = file.trim_start_matches("lib").trim_end_matches(".a");
    println!("cargo:rustc-link-search=native={}", folder.display());
    println!("cargo:rustc-link-lib=static={name}");
}

fn archive() -> PathBuf {
    if let Some(path) = env::var_os("HEDRAVOS_LIBRARY") {
        return PathBuf::from(path);
    }
    let here = PathBuf::from(env::var_os("CARGO_MANIFEST_DIR").unwrap());
    here.join("../../target/library/libhedravos.a")
}
