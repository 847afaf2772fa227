//! Finds the library: in the folder that CUCKOO_MAP_LIB_DIR names, or where pkg-config knows it.
use std::env;
use std::process::{exit, Command};

fn by_pkg_config() -> Option<String> {
    let program = env::var("PKG_CONFIG").unwrap_or_else(|_| "pkg-config".to_string());
    let output = Command::new(program)
        .args(["--variable=libdir", "cuckoo_map"])
        .output()
        .ok()?;
    let folder = String::from_utf8(output.stdout).ok()?.trim().to_string();
    (output.status.success() && !folder.is_empty()).then_some(folder)
}

fn main() {
    for name in ["CUCKOO_MAP_LIB_DIR", "PKG_CONFIG", "PKG_CONFIG_PATH"] {
        println!("cargo:rerun-if-env-changed={name}");
    }
    let Some(folder) = env::var("CUCKOO_MAP_LIB_DIR").ok().or_else(by_pkg_config) else {
        eprintln!(
            "cuckoo-map: libcuckoo_map.a is not found: set CUCKOO_MAP_LIB_DIR to its folder, or \
             PKG_CONFIG_PATH to that of cuckoo_map.pc"
        );
        exit(1)
    };
    println!("cargo:rerun-if-changed={folder}/libcuckoo_map.a");
    println!("cargo:rustc-link-search=native={folder}");
    println!("cargo:rustc-link-lib=static=cuckoo_map");
}
