//! Finds the library: in the folder that CLIM_LIB_DIR names, or else by pkg-config. It is linked as a shared library. It
//! is linked as a static one if CLIM_STATIC is set, or if the folder has no shared one.
//!
//! An older library lacks some functions of `c/clim.h`. The functions of `NEWER` are searched in the library that is
//! linked. For each that it has, the code of this crate sees a `cfg` with the name of the function.

use std::path::{Path, PathBuf};
use std::process::Command;
use std::{env, fs};

/// The functions that an older library lacks.
const NEWER: &[&str] = &[
    "clim_abi_version",
    "clim_view_size",
    "clim_check_within",
    "clim_check_root_within",
    "clim_open_within",
    "clim_open_root_within",
    "clim_explain",
    "clim_signature_text",
    "clim_user_string",
    "clim_canonical_root",
    "clim_digest",
    "clim_where",
    "clim_compare",
    "clim_tables",
    "clim_embed",
    "clim_offset_of",
    "clim_row_name",
    "clim_declaration",
    "clim_attribute_items",
];

/// The folder of the library by pkg-config, or why there is none.
fn folder_by_pkg_config() -> Result<PathBuf, String> {
    let program = env::var_os("PKG_CONFIG").unwrap_or_else(|| "pkg-config".into());
    let output = Command::new(program)
        .args(["--variable=libdir", "--print-errors", "clim"])
        .output()
        .map_err(|error| format!("pkg-config does not run: {error}"))?;
    let folder = String::from_utf8_lossy(&output.stdout).trim().to_string();
    if output.status.success() && !folder.is_empty() {
        Ok(folder.into())
    } else {
        Err(String::from_utf8_lossy(&output.stderr).trim().to_string())
    }
}

/// The folder of the library.
fn find_folder() -> PathBuf {
    if let Some(folder) = env::var_os("CLIM_LIB_DIR") {
        return folder.into();
    }
    folder_by_pkg_config().unwrap_or_else(|why| {
        panic!("the library of clim is not found: install it with ./install DIR, and name DIR/lib in CLIM_LIB_DIR or DIR/lib/pkgconfig in PKG_CONFIG_PATH\n{why}")
    })
}

/// The library to link, and how.
fn find_library(folder: &Path) -> (PathBuf, &'static str) {
    let (shared, archive) = (folder.join("libclim.so"), folder.join("libclim.a"));
    if env::var_os("CLIM_STATIC").is_none() && shared.exists() {
        (shared, "dylib")
    } else if archive.exists() {
        (archive, "static")
    } else {
        panic!("{} has no libclim.so and no libclim.a", folder.display())
    }
}

/// Whether a library has a symbol, judged by its name in the file.
fn has_symbol(library: &[u8], name: &str) -> bool {
    let symbol = format!("{name}\0");
    library.windows(symbol.len()).any(|bytes| bytes == symbol.as_bytes())
}

fn main() {
    for name in ["CLIM_LIB_DIR", "CLIM_STATIC", "PKG_CONFIG", "PKG_CONFIG_PATH"] {
        println!("cargo:rerun-if-env-changed={name}");
    }
    println!("cargo:rerun-if-changed=build.rs");
    let folder = find_folder();
    let (path, how) = find_library(&folder);
    let library = fs::read(&path).unwrap_or_else(|error| panic!("{}: {error}", path.display()));
    println!("cargo:rerun-if-changed={}", path.display());
    println!("cargo:rustc-link-search=native={}", folder.display());
    println!("cargo:rustc-link-lib={how}=clim");
    for name in NEWER {
        println!("cargo:rustc-check-cfg=cfg({name})");
        if has_symbol(&library, name) {
            println!("cargo:rustc-cfg={name}");
        }
    }
}
