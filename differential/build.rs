//! With the feature `register`: says where the proved register's library is.
//! JOURNAL_LIB_DIR names another folder than target/staticlib.

use std::env;

fn main() {
    println!("cargo:rerun-if-env-changed=JOURNAL_LIB_DIR");
    println!("cargo:rerun-if-changed=build.rs");
    if env::var_os("CARGO_FEATURE_REGISTER").is_none() {
        return;
    }
    let here = env::var("CARGO_MANIFEST_DIR").expect("cargo sets CARGO_MANIFEST_DIR");
    let folder =
        env::var("JOURNAL_LIB_DIR").unwrap_or_else(|_| format!("{here}/../target/staticlib"));
    println!("cargo:rerun-if-changed={folder}/libjournal.a");
    println!("cargo:rustc-link-search=native={folder}");
    println!("cargo:rustc-link-lib=journal");
}
