//! Links the product's static library from the folder that LORA_LIB_DIR names.

use std::path::Path;
use std::process::ExitCode;

const LIBRARY: &str = "liblora_c.a";

fn main() -> ExitCode {
    println!("cargo:rerun-if-changed=build.rs");
    println!("cargo:rerun-if-env-changed=LORA_LIB_DIR");
    let Ok(folder) = std::env::var("LORA_LIB_DIR") else {
        return fail("LORA_LIB_DIR is not set");
    };
    if !Path::new(&folder).is_absolute() {
        return fail(&format!("LORA_LIB_DIR is no whole path: {folder}"));
    }
    let library = Path::new(&folder).join(LIBRARY);
    if !library.is_file() {
        return fail(&format!("there is no file {}", library.display()));
    }
    // A program must not go on with an old copy of a rebuilt library.
    println!("cargo:rerun-if-changed={}", library.display());
    println!("cargo:rustc-link-search=native={folder}");
    println!("cargo:rustc-link-lib=static=lora_c");
    ExitCode::SUCCESS
}

fn fail(reason: &str) -> ExitCode {
    eprintln!("chyvandra: {reason}");
    eprintln!("chyvandra: set LORA_LIB_DIR to the whole path of the folder that has {LIBRARY}");
    eprintln!("chyvandra: (`tools/build library` makes it in target/staticlib)");
    ExitCode::FAILURE
}
