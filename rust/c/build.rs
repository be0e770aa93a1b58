//! Gives the shared library its soname: the major version of the headers in `include/`.

fn main() {
    let header = "../../include/wasmi_core.h";
    println!("cargo:rerun-if-changed={header}");
    let text = std::fs::read_to_string(header).expect("the header");
    let major = text
        .lines()
        .find_map(|line| line.strip_prefix("#define WASMI_CORE_VERSION_MAJOR "))
        .expect("the major version in the header");
    // The linkers of other systems have no such option.
    if matches!(
        std::env::var("CARGO_CFG_TARGET_OS").as_deref(),
        Ok("linux" | "freebsd" | "netbsd" | "openbsd")
    ) {
        println!("cargo:rustc-cdylib-link-arg=-Wl,-soname,libwasmi_core.so.{major}");
    }
}
