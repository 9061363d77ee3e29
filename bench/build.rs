//! Links the proved ledger, libabi.a in the folder that LIBRARY_FOLDER names; bench/run builds it.

use std::env;
use std::path::Path;

fn main() {
    println!("cargo:rerun-if-env-changed=LIBRARY_FOLDER");
    let folder = env::var("LIBRARY_FOLDER").expect("bench/run names the folder of libabi.a");
    println!("cargo:rustc-link-search=native={}", folder);
    println!("cargo:rustc-link-lib=static=abi");
    let library = Path::new(&folder).join("libabi.a");
    println!("cargo:rerun-if-changed={}", library.display());
}
