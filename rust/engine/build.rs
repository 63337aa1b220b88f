//! Tells the linker where libmerikohin.a is: in target/staticlib of this
//! repository, or in the directory named by MERIKOHIN_LIB_DIR.

use std::env;
use std::path::PathBuf;

fn main() {
    println!("cargo:rerun-if-env-changed=MERIKOHIN_LIB_DIR");
    let given = env::var_os("MERIKOHIN_LIB_DIR");
    let words = given.as_ref().map_or("target/staticlib".into(), |given| given.to_string_lossy());
    println!("cargo:rustc-env=MERIKOHIN_LINKED_FROM={words}");
    let directory = match &given {
        Some(given) => PathBuf::from(given),
        None => {
            let here = env::var_os("CARGO_MANIFEST_DIR").expect("cargo names the package's directory");
            PathBuf::from(here).join("..").join("..").join("target").join("staticlib")
        }
    };
    let library = directory.join("libmerikohin.a");
    println!("cargo:rerun-if-changed={}", library.display());
    if !library.is_file() {
        eprintln!("libmerikohin.a is not in {}: build the engine first, or set MERIKOHIN_LIB_DIR", directory.display());
        std::process::exit(1);
    }
    println!("cargo:rustc-link-search=native={}", directory.display());
}
