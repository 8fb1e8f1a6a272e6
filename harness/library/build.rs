//! Links the library's archives where they are there. Without them the harness builds, and `library::port()` answers nothing.

use std::path::Path;

fn main() {
    let folder = Path::new(env!("CARGO_MANIFEST_DIR")).join("../../target/staticlib");
    println!("cargo:rustc-check-cfg=cfg(port)");
    println!("cargo:rustc-link-search=native={}", folder.display());
    let names = ["port", "host"];
    for name in names {
        println!("cargo:rerun-if-changed={}", folder.join(format!("lib{name}.a")).display());
    }
    if names.iter().all(|name| folder.join(format!("lib{name}.a")).exists()) {
        println!("cargo:rustc-cfg=port");
        for name in names {
            println!("cargo:rustc-link-lib=static={name}");
        }
    }
}
