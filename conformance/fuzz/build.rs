//! Links libFuzzer, whose archive LIB_FUZZER names. Without it the targets run the inputs that they are given as files.
fn main() {
    println!("cargo:rerun-if-env-changed=LIB_FUZZER");
    println!("cargo:rustc-check-cfg=cfg(kept)");
    let Ok(archive) = std::env::var("LIB_FUZZER") else {
        println!("cargo:rustc-cfg=kept");
        return;
    };
    println!("cargo:rustc-link-arg-bins={archive}");
    println!("cargo:rustc-link-arg-bins=-lstdc++");
}
