//! What a patch object would change before it is swapped in: compiles a core and a patch with `cc`,
//! merges the core, previews the patch, and prints what would be another, the link untouched.
use hidvorn::{Link, Profile};
use std::path::{Path, PathBuf};
use std::process::{self, Command};
use std::{env, error::Error, fs};

type Outcome<T> = Result<T, Box<dyn Error>>;

const CORE: &str = "int lives;
void blank(void);
__attribute__((weak)) void mute(void) {}
__attribute__((weak)) int version(void) { return 1; }
int pad(void) { return 0; }
void mixer(void) { mute(); blank(); lives += version(); }
";
// It has a strong mute, blank, a larger lives, a weak pad that isn't used, and wants trace.
const PATCH: &str = "long lives[2];
void trace(const char *);
void mute(void) { trace(\"mute\"); }
void blank(void) {}
__attribute__((weak)) int pad(void) { return 1; }
";

fn compile(folder: &Path, name: &str, source: &str) -> Outcome<PathBuf> {
    let (from, to) = (folder.join(format!("{name}.c")), folder.join(format!("{name}.o")));
    fs::write(&from, source)?;
    let mut cc = Command::new("cc");
    cc.args([
        "-c",
        "-O1",
        "-fcommon",
        "-ffunction-sections",
        "-fno-asynchronous-unwind-tables",
        "-o",
    ]);
    let status = cc.arg(&to).arg(from).status().map_err(|error| format!("cc: {error}"))?;
    if status.success() { Ok(to) } else { Err(format!("cc: {status}").into()) }
}

fn main() -> Outcome<()> {
    let folder = env::temp_dir().join(format!("hidvorn-preview-{}", process::id()));
    fs::create_dir_all(&folder)?;
    let done = preview(&folder);
    fs::remove_dir_all(&folder)?;
    done
}

fn preview(folder: &Path) -> Outcome<()> {
    let core = fs::read(compile(folder, "core", CORE)?)?;
    let patch = fs::read(compile(folder, "patch", PATCH)?)?;
    let mut link = Link::with_profile(Profile::Gabi, hidvorn::Capacity::BOUNDS)?;
    link.merge_file(&core)?;
    print!("{}", link.preview_file(&patch)?);
    println!("the link has {} inputs still", link.input_count());
    Ok(())
}
