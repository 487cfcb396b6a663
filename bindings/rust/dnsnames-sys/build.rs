//! Finds the library: in the folder that DNSNAMES_LIB_DIR names, else by pkg-config.

use std::env::{var, var_os};
use std::process::Command;

/// What makes it, where it isn't there.
const MADE: &str = "bindings/build makes it in bindings/c/out";

fn main() {
    for name in ["DNSNAMES_LIB_DIR", "PKG_CONFIG", "PKG_CONFIG_PATH", "DOCS_RS"] {
        println!("cargo:rerun-if-env-changed={name}");
    }
    // Pages need no library: there is none where docs.rs makes them.
    if var_os("DOCS_RS").is_some() {
        return;
    }
    let linked = match var("DNSNAMES_LIB_DIR") {
        Ok(folder) => link_archive(&folder),
        Err(_) => link_by_pkg_config(),
    };
    if let Err(why) = linked {
        panic!("{why}");
    }
}

pub fn link_archive(folder: &str) -> Result<(), String> {
    let folder =
        std::fs::canonicalize(folder).map_err(|error| format!("DNSNAMES_LIB_DIR is {folder}: {error}; {MADE}"))?;
    let archive = folder.join("libdnsnames.a");
    if !archive.exists() {
        return Err(format!("DNSNAMES_LIB_DIR: no libdnsnames.a in {}; {MADE}", folder.display()));
    }
    println!("cargo:rerun-if-changed={}", archive.display());
    println!("cargo:rustc-link-search=native={}", folder.display());
    println!("cargo:rustc-link-lib=static=dnsnames");
    Ok(())
}

/// PKG_CONFIG names another pkg-config. That of this machine doesn't know the libraries of another.
pub fn link_by_pkg_config() -> Result<(), String> {
    if var_os("PKG_CONFIG").is_none() && var_os("HOST") != var_os("TARGET") {
        let why = "built for another machine: set DNSNAMES_LIB_DIR to the folder of its libdnsnames.a, or PKG_CONFIG";
        return Err(why.to_string());
    }
    let command = var("PKG_CONFIG").unwrap_or_else(|_| "pkg-config".to_string());
    let answer = Command::new(command).args(["--libs", "dnsnames"]).output();
    let flags = match answer {
        Ok(output) if output.status.success() => String::from_utf8_lossy(&output.stdout).into_owned(),
        _ => {
            let set = "set DNSNAMES_LIB_DIR to the folder of libdnsnames.a, or install it";
            return Err(format!("the library isn't there: {set}; {MADE}"));
        }
    };
    for flag in flags.split_whitespace() {
        if let Some(folder) = flag.strip_prefix("-L") {
            println!("cargo:rustc-link-search=native={folder}");
        } else if let Some(name) = flag.strip_prefix("-l") {
            println!("cargo:rustc-link-lib={name}");
        }
    }
    Ok(())
}
