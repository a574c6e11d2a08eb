//! Links the three archives that `tools/static_library` makes. `CANNM_LIBRARIES` names the folder they stand in.

use std::path::PathBuf;

fn main() {
    println!("cargo:rerun-if-env-changed=CANNM_LIBRARIES");
    let folder = std::env::var_os("CANNM_LIBRARIES")
        .map(PathBuf::from)
        .expect("CANNM_LIBRARIES is not set: the folder of libcannm_c.a, libtest_host.a and libtrace_host.a");
    let folder = folder
        .canonicalize()
        .unwrap_or_else(|error| panic!("CANNM_LIBRARIES, {}: {error}", folder.display()));
    println!("cargo:rustc-link-search=native={}", folder.display());
    for library in ["cannm_c", "test_host", "trace_host"] {
        let archive = folder.join(format!("lib{library}.a"));
        assert!(archive.is_file(), "there is no {}", archive.display());
        println!("cargo:rerun-if-changed={}", archive.display());
        println!("cargo:rustc-link-lib=static={library}");
    }
}
