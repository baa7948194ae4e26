// SPDX-License-Identifier: Apache-2.0 OR BSD-3-Clause
//! Gives the shared library the name under which programs look for it: it ends with the number of the binary interface.
fn main() {
    println!("cargo:rerun-if-changed=build.rs");
    println!("cargo:rerun-if-changed=src/lib.rs");
    let abi = include_str!("src/lib.rs").split("const ABI: u32 = ").nth(1).and_then(|rest| rest.split(';').next());
    if std::env::var("CARGO_CFG_TARGET_OS").as_deref() == Ok("linux") {
        println!("cargo:rustc-cdylib-link-arg=-Wl,-soname,libsuperio.so.{}", abi.unwrap());
    }
}
