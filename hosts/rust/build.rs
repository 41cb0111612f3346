//! Links the archive of the proved library.
//!
//! Cargo cannot make that archive. In a clone `tools/native-lib capi build/native/libcapi.a` does,
//! from the repository's root; `./install` and the archives of a release have it ready, as
//! libtrawlbeacon.a, beside this package.

use std::path::{Path, PathBuf};
use std::{env, process};

/// Where this package stands below the prefix of an installation.
const INSTALLED: &str = "share/trawlbeacon/rust";

/// The folder of the archive: TRAWLBEACON_LIB_DIR, or else that of the installation that this
/// package is a part of, or else where ./test puts it. A relative one is counted from this
/// package's folder, and cargo runs a build script there.
fn folder() -> PathBuf {
    if let Some(named) = env::var_os("TRAWLBEACON_LIB_DIR") {
        return PathBuf::from(named);
    }
    let package = env::current_dir().and_then(|here| here.canonicalize()).unwrap_or_default();
    PathBuf::from(if package.ends_with(INSTALLED) { "../../../lib" } else { "../../build/native" })
}

fn stop(folder: &Path) -> ! {
    let sought = env::current_dir().unwrap_or_default().join(folder);
    eprintln!(
        "there is no archive of the proved library, libtrawlbeacon.a or libcapi.a, in {}",
        sought.display()
    );
    eprintln!(
        "run 'tools/native-lib capi build/native/libcapi.a' in the repository's root, or set \
         TRAWLBEACON_LIB_DIR to the whole path of the folder that holds it"
    );
    process::exit(1);
}

fn main() {
    println!("cargo:rerun-if-env-changed=TRAWLBEACON_LIB_DIR");
    let folder = folder();
    for name in ["trawlbeacon", "capi"] {
        // The compiler runs in another folder than this script, so it is given the whole path.
        if let Ok(found) = folder.join(format!("lib{name}.a")).canonicalize() {
            println!("cargo:rerun-if-changed={}", found.display());
            let folder = found.parent().expect("a file stands in a folder");
            println!("cargo:rustc-link-search=native={}", folder.display());
            println!("cargo:rustc-link-lib=static={name}");
            return;
        }
    }
    stop(&folder);
}
