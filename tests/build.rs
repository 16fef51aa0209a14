//! Links the static libraries that are there. Each is named by an environment
//! variable or found at its usual place in the repository; one
//! that is missing is left out, and the suites that need it with it.

use std::env;
use std::path::{Path, PathBuf};

fn main() {
    let root = Path::new(&env::var("CARGO_MANIFEST_DIR").unwrap()).join("..");
    for (name, place) in [
        ("baseline", "target/outside/libbaseline.a"),
        ("worksheet", "crates/worksheet/out/libworksheet.a"),
        ("probe", "crates/probe/out/libprobe.a"),
    ] {
        let variable = format!("{}_LIB", name.to_uppercase());
        println!("cargo:rerun-if-env-changed={variable}");
        println!("cargo:rustc-check-cfg=cfg(have_{name})");
        let archive = match env::var(&variable) {
            Ok(path) if path.is_empty() => continue,
            Ok(path) => PathBuf::from(path),
            Err(_) => root.join(place),
        };
        println!("cargo:rerun-if-changed={}", archive.display());
        if archive.exists() {
            let archive = archive.canonicalize().unwrap();
            println!("cargo:rustc-link-arg-bins={}", archive.display());
            println!("cargo:rustc-cfg=have_{name}");
        } else if env::var(&variable).is_ok() {
            panic!("{variable}: there is no {}", archive.display());
        }
    }
}
