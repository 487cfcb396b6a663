//! The library that is linked is of the version that is declared.

use std::ffi::CStr;

#[test]
fn version() {
    // SAFETY: the call takes nothing, and its text stays.
    let version = unsafe { CStr::from_ptr(dnsnames_sys::dnsnames_version()) };
    assert_eq!(version.to_str(), Ok(dnsnames_sys::DNSNAMES_VERSION));
}

#[test]
fn version_of_the_package() {
    assert_eq!(dnsnames_sys::DNSNAMES_VERSION, env!("CARGO_PKG_VERSION"));
}
