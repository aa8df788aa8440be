//! Links libpciex_c.a of the folder that PCIEX_C names, and the toolchain's liblibc_c.a of the folder that KIT_C names.

fn main() {
    for (variable, library) in [("PCIEX_C", "pciex_c"), ("KIT_C", "libc_c")] {
        println!("cargo:rerun-if-env-changed={variable}");
        let Ok(folder) = std::env::var(variable) else {
            panic!("{variable} has to name the folder with lib{library}.a");
        };
        println!("cargo:rustc-link-search=native={folder}");
        println!("cargo:rustc-link-lib=static={library}");
        println!("cargo:rerun-if-changed={folder}/lib{library}.a");
    }
}
