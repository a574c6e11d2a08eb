//! Links the archive of the runs that are measured. `CANNM_LIBRARIES` names the folder it stands in, beside those
//! that `cannm_compare` links.

use std::path::PathBuf;

fn main() {
    println!("cargo:rerun-if-env-changed=CANNM_LIBRARIES");
    let folder = std::env::var_os("CANNM_LIBRARIES")
        .map(PathBuf::from)
        .expect("CANNM_LIBRARIES is not set: the folder of libbench_host.a");
    let folder = folder
        .canonicalize()
        .unwrap_or_else(|error| panic!("CANNM_LIBRARIES, {}: {error}", folder.display()));
    let archive = folder.join("libbench_host.a");
    assert!(archive.is_file(), "there is no {}", archive.display());
    println!("cargo:rerun-if-changed={}", archive.display());
    println!("cargo:rustc-link-search=native={}", folder.display());
    println!("cargo:rustc-link-lib=static=bench_host");
}
