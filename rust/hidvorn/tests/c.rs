//! The header for C: a program over it and libhidvorn.a alone, built by `cc` (or `CC`) and run.
use std::path::Path;
use std::process::Command;

const SAID: &str = "\
the mixer calls mute alone
  warning: mute: libav.a(sound.o) was not taken and has a strong one, size 8; core.o holds it: weak, size 1
  mute is the weak one of core.o, at 0x1000, size 1
the mixer calls mute and mix_clear, which the core doesn't have
  libav.a(sound.o) is taken
  mute is the strong one of libav.a(sound.o), at 0x5000, size 8
";

#[test]
fn the_story_in_c() {
    let package = Path::new(env!("CARGO_MANIFEST_DIR"));
    let program = Path::new(env!("CARGO_TARGET_TMPDIR")).join("mute");
    let built = Command::new(std::env::var_os("CC").unwrap_or("cc".into()))
        .args(["-std=c99", "-Wall", "-Wextra", "-pedantic", "-Werror", "-I"])
        .arg(package.join("include"))
        .arg(package.join("examples/mute.c"))
        .arg(env!("HIDVORN_ARCHIVE"))
        .arg("-o")
        .arg(&program)
        .status()
        .expect("a C compiler");
    assert!(built.success());
    let ran = Command::new(&program).output().expect("the program");
    assert!(ran.status.success());
    assert_eq!(String::from_utf8_lossy(&ran.stdout), SAID);
}
