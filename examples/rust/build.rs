//! Links `liblinetab.a`, which `./library PREFIX` put into `PREFIX/lib`: LINETAB is that prefix.
fn main() {
    let prefix = std::env::var("LINETAB").expect("LINETAB is the prefix that ./library was given");
    println!("cargo:rerun-if-env-changed=LINETAB");
    println!("cargo:rustc-link-search=native={prefix}/lib");
    println!("cargo:rustc-link-lib=static=linetab");
}
