//! Says where the static library lies, if it is used.
use std::env;

fn main() {
    println!("cargo:rerun-if-changed=native/libtoxicap.a");
    if env::var_os("CARGO_FEATURE_NATIVE").is_none() {
        return;
    }
    let target = ["OS", "ARCH"].map(|part| env::var(format!("CARGO_CFG_TARGET_{part}")).unwrap_or_default());
    let help = "toxicap rehearses only on Linux on x86-64: elsewhere use it with default-features = false, which reads outputs";
    assert_eq!(target, ["linux", "x86_64"], "{help}");
    println!("cargo:rustc-link-search=native={}/native", env::var("CARGO_MANIFEST_DIR").unwrap());
}
