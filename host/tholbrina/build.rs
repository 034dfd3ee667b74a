//! Takes the version from the C header, the one place where it stands.

fn main() {
    let header = concat!(env!("CARGO_MANIFEST_DIR"), "/../../include/tholbrina.h");
    let text = std::fs::read_to_string(header).expect("the header can be read");
    let version = text
        .lines()
        .find_map(|line| {
            line.strip_prefix("#define THOLBRINA_VERSION \"")?
                .strip_suffix('"')
        })
        .expect("the header defines THOLBRINA_VERSION");
    println!("cargo:rerun-if-changed={header}");
    println!("cargo:rustc-env=THOLBRINA_VERSION={version}");
}
