//! Links the proved program's library, unless only the tuned program is run.
//! HEDRAVOS_LIBRARY may give the archive's path; otherwise it is target/library/libhedravos.a, as tools/library makes it,
//! and on an Arm machine, where that one's code would run under an emulator, target/bench/libhedravos.a, as bench/library makes it.

use std::env;
use std::path::PathBuf;

fn main() {
    println!("cargo:rerun-if-env-changed=HEDRAVOS_LIBRARY");
    if env::var_os("CARGO_FEATURE_BASELINE_ONLY").is_some() {
        return;
    }
    let (place, maker) = match env::var("CARGO_CFG_TARGET_ARCH").unwrap().as_str() {
        "x86_64" => ("library", "tools/library"),
        "aarch64" => ("bench", "bench/library"),
        _ => panic!("there is no proved program for this machine; use --features baseline-only"),
    };
    let archive = archive(place);
    println!("cargo:rerun-if-changed={}", archive.display());
    if !archive.is_file() {
        panic!(
            "{} isn't there; run {maker}, set HEDRAVOS_LIBRARY, or use --features baseline-only",
            archive.display()
        );
    }
    let folder = archive.parent().expect("an archive lies in a folder");
    let file = archive.file_name().unwrap().to_string_lossy();
    let name = file.trim_start_matches("lib").trim_end_matches(".a");
    println!("cargo:rustc-link-search=native={}", folder.display());
    println!("cargo:rustc-link-lib=static={name}");
}

fn archive(place: &str) -> PathBuf {
    if let Some(path) = env::var_os("HEDRAVOS_LIBRARY") {
        return PathBuf::from(path);
    }
    let here = PathBuf::from(env::var_os("CARGO_MANIFEST_DIR").unwrap());
    here.join("../target").join(place).join("libhedravos.a")
}
