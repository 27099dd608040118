//! Tells the linker where libholdamek.a is: in $HOLDAMEK_LIB, or else in ../crates/holdamek/out, where `rt lib` in ../crates/holdamek puts it.

use std::path::Path;

fn main() {
    println!("cargo:rerun-if-env-changed=HOLDAMEK_LIB");
    let own = std::env::var("CARGO_MANIFEST_DIR").unwrap_or_default() + "/../crates/holdamek/out";
    let folder = std::env::var("HOLDAMEK_LIB").unwrap_or(own);
    println!("cargo:rerun-if-changed={folder}/libholdamek.a");
    if !Path::new(&folder).join("libholdamek.a").is_file() {
        eprintln!("holdamek: there is no libholdamek.a in {folder}");
        eprintln!("Run `rt lib` in Holdamek's folder crates/holdamek, or set HOLDAMEK_LIB to the folder that has libholdamek.a.");
        std::process::exit(1);
    }
    println!("cargo:rustc-link-search=native={folder}");
    println!("cargo:rustc-link-lib=static=holdamek");
}
