//! Finds the 17 files of cuddld, checks every byte of them, and hands their folder to the driver,
//! which includes them unchanged.
//!
//! Two of them are `mod.rs` files that name other files beside them: symbol.rs, which is wrapped
//! (so that a child module can read private state), views.rs, and four that are missing. These two
//! and views.rs are copied, byte for byte, to where the compiler finds our files beside them.
#[path = "build/sha256.rs"]
mod sha256;

use std::path::{Path, PathBuf};
use std::{env, fs};

fn main() {
    let package = PathBuf::from(env::var("CARGO_MANIFEST_DIR").unwrap());
    let repository = package.join("../..");
    let out = PathBuf::from(env::var("OUT_DIR").unwrap());

    println!("cargo:rerun-if-env-changed=CUDDLD_SRC");
    let given = env::var("CUDDLD_SRC").unwrap_or_else(|_| "../shared/docs/src".into());
    let sources = repository.join(&given);
    let list = package.join("../sources.sha256");
    println!("cargo:rerun-if-changed={}", list.display());
    check(&sources, &fs::read_to_string(&list).expect("sources.sha256"));
    let sources = sources.join("cuddld/src").canonicalize().unwrap();
    println!("cargo:rustc-env=CUDDLD_FILES={}", sources.display());

    let symbols = out.join("repr/symbols");
    let access = package.join("src/repr/symbols/symbol_access.rs");
    copy(&sources, &out, "repr/symbols/mod.rs");
    copy(&sources, &out, "repr/symbols/views.rs");
    write(
        &symbols.join("symbol.rs"),
        &format!(
            "include!({:?});\n#[path = {:?}]\nmod access;\n",
            sources.join("repr/symbols/symbol.rs").display().to_string(),
            access.display().to_string(),
        ),
    );

    let undefined = "diagnostics/builders/undefined_symbol";
    copy(&sources, &out, &format!("{undefined}/mod.rs"));
    for missing in
        ["different_visibility", "entry_point_note", "present_in_pkg_config", "similar_symbols"]
    {
        // Parts of a message that nobody prints here.
        write(
            &out.join(undefined).join(format!("{missing}.rs")),
            "pub(super) fn generate(\n    _: &super::UndefinedSymbolDiagnostic,\n    \
             _: &cuddld_diagnostics::GatheredContext<'_>,\n) -> \
             Vec<cuddld_diagnostics::widgets::Text> {\n    Vec::new()\n}\n",
        );
    }
}

/// Stops the build at the first file that is missing or differs.
fn check(sources: &Path, list: &str) {
    let mut files = 0;
    for line in list.lines() {
        let (wanted, name) = line.split_once("  ").expect("sources.sha256: sum, two spaces, name");
        let path = sources.join(name);
        println!("cargo:rerun-if-changed={}", path.display());
        let Ok(bytes) = fs::read(&path) else {
            stop(&format!(
                "cannot read {}: set CUDDLD_SRC to the folder that holds cuddld/src (an absolute \
                 path, or one from the repository's root)",
                path.display()
            ));
        };
        let found = sha256::hex(&bytes);
        if found != wanted {
            stop(&format!(
                "{} is not the file of commit 52c3fdfe63: its SHA-256 is {found}, not {wanted}",
                path.display()
            ));
        }
        files += 1;
    }
    assert_eq!(files, 17, "sources.sha256 must list the 17 files");
}

fn stop(message: &str) -> ! {
    eprintln!("oracle: {message}");
    std::process::exit(1);
}

fn copy(sources: &Path, out: &Path, name: &str) {
    let bytes = fs::read(sources.join(name)).expect("a file that was just checked");
    let target = out.join(name);
    fs::create_dir_all(target.parent().unwrap()).unwrap();
    fs::write(target, bytes).unwrap();
}

fn write(target: &Path, text: &str) {
    fs::create_dir_all(target.parent().unwrap()).unwrap();
    fs::write(target, text).unwrap();
}
