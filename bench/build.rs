// Links the proved functions, and the C code that Rattle's standard library stands on.
use std::env;

fn main() {
    for (variable, library) in [("PROVED_LIB", "bench_calls"), ("C_LIB", "libc_c")] {
        let folder = env::var(variable).expect("bench/run says where the libraries are");
        println!("cargo:rerun-if-env-changed={variable}");
        println!("cargo:rerun-if-changed={folder}/lib{library}.a");
        println!("cargo:rustc-link-search=native={folder}");
        println!("cargo:rustc-link-lib=static={library}");
    }
}
