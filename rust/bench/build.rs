//! Links libosmocore where Debian's libosmocore-dev is installed.

use std::process::Command;

fn main() {
    println!("cargo:rustc-check-cfg=cfg(osmocore)");
    let found = Command::new("pkg-config")
        .args(["--exists", "libosmogsm"])
        .status()
        .is_ok_and(|status| status.success());
    if found {
        println!("cargo:rustc-cfg=osmocore");
        println!("cargo:rustc-link-lib=osmogsm");
        println!("cargo:rustc-link-lib=osmocore");
    }
}
