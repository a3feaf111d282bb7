//! Finds `libffn_c.a` and `libradio_c.a`, which `tests/build ffn_c radio_c`
//! makes: in the folder that FFN_LIB_DIR names, or in the repository's own.

use std::path::PathBuf;

fn main() {
    println!("cargo:rerun-if-env-changed=FFN_LIB_DIR");
    if std::env::var_os("CARGO_FEATURE_ARCHIVE").is_none() {
        return;
    }
    let folder = std::env::var_os("FFN_LIB_DIR").map_or_else(
        || PathBuf::from(env!("CARGO_MANIFEST_DIR")).join("../../target/staticlib"),
        PathBuf::from,
    );
    println!("cargo:rustc-link-search=native={}", folder.display());
    for name in ["ffn_c", "radio_c"] {
        let library = folder.join(format!("lib{name}.a"));
        assert!(
            library.is_file(),
            "no {}: run `tests/build {name}`, or set FFN_LIB_DIR",
            library.display()
        );
        println!("cargo:rerun-if-changed={}", library.display());
        println!("cargo:rustc-link-lib=static={name}");
    }
    if std::env::var("CARGO_CFG_TARGET_ARCH").is_ok_and(|processor| processor != "x86_64") {
        println!("cargo:warning=the archives are x86-64 code: here ffn can be checked, not linked");
    }
}
