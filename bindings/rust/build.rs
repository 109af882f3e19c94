//! Links libinterface.a from the folder that the variable VAREFFECT_LIB names.

use std::path::Path;

fn main() {
    println!("cargo:rerun-if-env-changed=VAREFFECT_LIB");
    let Some(folder) = std::env::var_os("VAREFFECT_LIB") else {
        refuse("VAREFFECT_LIB is not set: set it to the full path of the folder of libinterface.a");
    };
    let folder = Path::new(&folder);
    let shown = folder.display();
    if !folder.is_absolute() {
        refuse(&format!("VAREFFECT_LIB must be a full path, not {shown}"));
    }
    if !folder.join("libinterface.a").is_file() {
        refuse(&format!(
            "VAREFFECT_LIB names {shown}, which has no libinterface.a"
        ));
    }
    println!("cargo:rerun-if-changed={shown}/libinterface.a");
    println!("cargo:rustc-link-search=native={shown}");
    println!("cargo:rustc-link-lib=static=interface");
}

/// One sentence on standard error, exit status 1.
fn refuse(sentence: &str) -> ! {
    eprintln!("{sentence}");
    std::process::exit(1)
}
