//! Links the proved engine: the archive that `tools/build desk` writes, or the one that CHHUTIROK_DESK names.

use std::env;
use std::path::Path;

fn main() {
    let here = env::var("CARGO_MANIFEST_DIR").expect("cargo says where the package stands");
    let archive = env::var("CHHUTIROK_DESK").unwrap_or_else(|_| {
        let usual = Path::new(&here).join("../../target/staticlib/libdesk.a");
        usual.to_string_lossy().into_owned()
    });
    println!("cargo:rerun-if-env-changed=CHHUTIROK_DESK");
    println!("cargo:rerun-if-changed={archive}");
    println!("cargo:rustc-link-arg={archive}");
}
