//! Says what each program is linked with: ./library makes it.
const LINKED: [(&str, &str); 3] = [
    ("compare", "libhourledger.a"),
    ("bench", "libhourledger.a"),
    ("foundation", "staticlib/librelations_c.a"),
];

fn main() {
    let target = concat!(env!("CARGO_MANIFEST_DIR"), "/../target");
    for (program, library) in LINKED {
        println!("cargo:rustc-link-arg-bin={program}={target}/{library}");
        println!("cargo:rerun-if-changed={target}/{library}");
    }
}
