//! A build without the library names what makes it.

#[allow(dead_code)]
#[path = "../build.rs"]
mod build;

const MADE: &str = "; bindings/build makes it in bindings/c/out";

#[test]
fn no_folder() {
    let why = build::link_archive("no/such/folder").unwrap_err();
    assert!(why.starts_with("DNSNAMES_LIB_DIR is no/such/folder: ") && why.ends_with(MADE), "{why}");
}

#[test]
fn no_archive() {
    let folder = concat!(env!("CARGO_MANIFEST_DIR"), "/src");
    let why = build::link_archive(folder).unwrap_err();
    assert!(why.starts_with("DNSNAMES_LIB_DIR: no libdnsnames.a in /") && why.ends_with(MADE), "{why}");
}

#[test]
fn not_installed() {
    // No other test here reads the variable.
    std::env::set_var("PKG_CONFIG", "no-such-pkg-config");
    let why = build::link_by_pkg_config().unwrap_err();
    assert!(why.starts_with("the library isn't there: set DNSNAMES_LIB_DIR ") && why.ends_with(MADE), "{why}");
}
