//! Links the proved archive, `libhavdorlek.a`.
//!
//! It is looked for in the directory that HAVDORLEK_ARCHIVE names, a relative one seen from the repository's root, and in
//! `target/ends` there where nothing is named.

use std::env;
use std::path::Path;

fn main() {
    let package = env::var("CARGO_MANIFEST_DIR").expect("cargo names the package's directory");
    let repository = Path::new(&package)
        .ancestors()
        .nth(3)
        .expect("the package lies in ends/rust of the repository");
    let named = env::var_os("HAVDORLEK_ARCHIVE").unwrap_or_else(|| "target/ends".into());
    let directory = repository.join(named);
    let archive = directory.join("libhavdorlek.a");
    println!("cargo::rerun-if-env-changed=HAVDORLEK_ARCHIVE");
    println!("cargo::rerun-if-changed={}", archive.display());
    if !archive.is_file() {
        let looked = archive.display();
        println!("cargo::error=the proved archive is not there: {looked}");
        println!("cargo::error=`ends/archive`, run from the repository's root, makes it in target/ends;");
        println!("cargo::error=where it lies elsewhere, HAVDORLEK_ARCHIVE names its directory");
        return;
    }
    println!("cargo::rustc-link-search=native={}", directory.display());
    println!("cargo::rustc-link-lib=static=havdorlek");
}
