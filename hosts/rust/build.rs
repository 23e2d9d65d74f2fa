//! Tells Cargo where libsrci.a is: in the folder that SRCI_LIBRARY names, or where hosts/build.sh puts it. Without it
//! the package can be checked and documented, and not linked.
use std::env;
use std::fs;
use std::path::{Path, PathBuf};

fn main() {
    let built = || Path::new(&env::var("CARGO_MANIFEST_DIR").unwrap()).join("../../build/lib");
    let folder = env::var("SRCI_LIBRARY").map_or_else(|_| built(), PathBuf::from);
    let archive = folder.join("libsrci.a");
    println!("cargo:rerun-if-env-changed=SRCI_LIBRARY");
    println!("cargo:rerun-if-changed={}", archive.display());
    match fs::canonicalize(&archive) {
        Ok(found) => {
            let folder = found.parent().unwrap();
            println!("cargo:rustc-link-search=native={}", folder.display());
        }
        Err(_) => println!(
            "cargo:warning=there is no {}, without which nothing links: hosts/build.sh builds it",
            archive.display()
        ),
    }
}
