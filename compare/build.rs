//! For the program `stack`, and for no other: the linker puts the program's own functions
//! `__wrap_umbraconga_calculate` and `__wrap_umbraconga_run` where the comparison calls the library,
//! and has the library's under the names that begin with `__real_`.

fn main() {
    println!("cargo:rerun-if-changed=build.rs");
    for entry in ["umbraconga_calculate", "umbraconga_run"] {
        println!("cargo:rustc-link-arg-bin=stack=-Wl,--wrap={entry}");
    }
}
