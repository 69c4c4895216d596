//! Links target/rangemap to rangemap's sources: RANGEMAP_SRC, or else ../shared/docs/src beside the repository.
use std::io::Result;
use std::path::{Path, PathBuf};
use std::{env, fs, os::unix::fs::symlink, process};

fn main() -> Result<()> {
    println!("cargo:rerun-if-env-changed=RANGEMAP_SRC");
    println!("cargo:rerun-if-changed=../../target/rangemap/src/lib.rs");
    let root = Path::new(env!("CARGO_MANIFEST_DIR")).join("../..");
    let given = env::var_os("RANGEMAP_SRC").map(PathBuf::from);
    let sources = given.unwrap_or_else(|| root.join("../shared/docs/src"));
    let sources = sources
        .canonicalize()
        .expect("rangemap's sources are at hand, or RANGEMAP_SRC names them");

    let link = root.join("target/rangemap");
    if fs::read_link(&link).is_ok_and(|old| old == sources) {
        return Ok(());
    }
    // Two builds may stand here at once, so the link is made aside and moved in place.
    let aside = root.join(format!("target/rangemap.{}", process::id()));
    fs::create_dir_all(root.join("target"))?;
    symlink(&sources, &aside)?;
    fs::rename(&aside, &link)
}
