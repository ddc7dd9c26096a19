//! Which core is linked, for `plotmark --version`.

use std::env;
use std::path::PathBuf;

use archive::identity::Identity;

fn main() {
    // Cargo hands on what the build script of `dustroute` says.
    let archive = env::var_os("DEP_CAPI_ARCHIVE").map(PathBuf::from);
    let beside = archive.map(|it| it.with_extension("id"));
    let core = beside.and_then(|it| Identity::read(&it));
    let said = core.map_or_else(|| "of an unknown identity".to_string(), |it| it.to_string());
    println!("cargo::rustc-env=PLOTMARK_CORE={said}");
}
