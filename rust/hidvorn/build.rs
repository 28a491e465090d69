//! Finds the archive of the proved functions: `HIDVORN_LIB`, else the repository's own.
use std::path::PathBuf;
use std::{env, process};

fn main() {
    println!("cargo:rerun-if-env-changed=HIDVORN_LIB");
    let package = PathBuf::from(env::var("CARGO_MANIFEST_DIR").unwrap());
    let archive = match env::var_os("HIDVORN_LIB") {
        Some(path) => PathBuf::from(path),
        None => package.join("../../crates/hidvorn/out/libhidvorn.a"),
    };
    println!("cargo:rerun-if-changed={}", archive.display());
    let Ok(archive) = archive.canonicalize() else {
        stop(&format!(
            "{} is missing: run `rt lib` in crates/hidvorn, or set HIDVORN_LIB to the path of a \
             libhidvorn.a",
            archive.display()
        ));
    };
    let folder = archive.parent().expect("a file lies in a folder");
    let name = archive.file_name().and_then(|name| name.to_str());
    let Some(name) = name.and_then(|name| name.strip_prefix("lib")?.strip_suffix(".a")) else {
        stop(&format!("{} is not named lib*.a", archive.display()));
    };
    println!("cargo:rustc-link-search=native={}", folder.display());
    println!("cargo:rustc-link-lib=static={name}");
    // for the test of the C header
    println!("cargo:rustc-env=HIDVORN_ARCHIVE={}", archive.display());
}

fn stop(message: &str) -> ! {
    println!("cargo:warning={message}");
    eprintln!("hidvorn: {message}");
    process::exit(1);
}
