//! The link of examples/mute.rs from real files: compiles a core and two archives with `cc` and `ar`,
//! video and sound, which need each other; merges the core, walks over both archives as one and merges
//! the members that it admits. Prints who holds `mute` at the end, and warns of what a member that was
//! not taken would have defined.
use hidvorn::{Link, Object, PendingArchive, Profile, Step};
use std::collections::BTreeSet;
use std::path::{Path, PathBuf};
use std::process::{self, Command};
use std::{env, error::Error, fs};
use support::{Holders, strength, warn};

mod support;

type Outcome<T> = Result<T, Box<dyn Error>>;

// A weak mute and a weak vsync that do nothing; the mixer calls them, and mix_clear and frame, which
// the core doesn't have.
const CORE: &str = "void mix_clear(void); void frame(void);
__attribute__((weak)) void mute(void) {}
__attribute__((weak)) void vsync(void) {}
void mixer(void) { mute(); mix_clear(); frame(); vsync(); }
";
const SOUND: &str = "static int buffer[64];
void mix_clear(void) { for (int i = 0; i < 64; i++) buffer[i] = 0; }
void mute(void) { mix_clear(); }
";
// Video's frame calls sound's beep, which calls video's blank; nobody calls chime, beside which the
// strong vsync lies.
const FRAME: &str = "void beep(void); void frame(void) { beep(); }\n";
const BEEP: &str = "void blank(void); void beep(void) { blank(); }\n";
const BLANK: &str = "void blank(void) {}\n";
const CHIME: &str = "int frames; void chime(void) {} void vsync(void) { frames++; }\n";
const VIDEO: [(&str, &str); 2] = [("frame", FRAME), ("blank", BLANK)];
const AUDIO: [(&str, &str); 3] = [("sound", SOUND), ("beep", BEEP), ("chime", CHIME)];

fn run(command: &mut Command) -> Outcome<()> {
    let status = command.status().map_err(|error| format!("{command:?}: {error}"))?;
    if status.success() { Ok(()) } else { Err(format!("{command:?}: {status}").into()) }
}

fn compile(folder: &Path, name: &str, source: &str) -> Outcome<PathBuf> {
    let (from, to) = (folder.join(format!("{name}.c")), folder.join(format!("{name}.o")));
    fs::write(&from, source)?;
    run(Command::new("cc").args(["-c", "-O1", "-ffunction-sections", "-o"]).arg(&to).arg(from))?;
    Ok(to)
}

fn archive(folder: &Path, name: &str, members: &[(&str, &str)]) -> Outcome<PathBuf> {
    let objects = members.iter().map(|(name, source)| compile(folder, name, source));
    let objects: Vec<_> = objects.collect::<Outcome<_>>()?;
    let to = folder.join(name);
    run(Command::new("ar").arg("rcs").arg(&to).args(objects))?;
    Ok(to)
}

/// The member whose header is at that offset of the archive: its name and its bytes.
fn member(archive: &[u8], offset: usize) -> Outcome<(String, &[u8])> {
    let header = archive.get(offset..offset + 60).ok_or("no member there")?;
    let size: usize = str::from_utf8(&header[48..58])?.trim().parse()?;
    let name = str::from_utf8(&header[..16])?.trim_end().trim_end_matches('/').to_string();
    Ok((name, archive.get(offset + 60..offset + 60 + size).ok_or("a member cut short")?))
}

/// The archive's index: the first member, behind the archive's eight bytes.
fn index(archive: &[u8]) -> Outcome<&[u8]> {
    Ok(member(archive, 8)?.1)
}

fn main() -> Outcome<()> {
    let folder = env::temp_dir().join(format!("hidvorn-title-{}", process::id()));
    fs::create_dir_all(&folder)?;
    let done = link(&folder);
    fs::remove_dir_all(&folder)?;
    done
}

fn link(folder: &Path) -> Outcome<()> {
    let (core, archives) = make(folder)?;
    for profile in [Profile::Old, Profile::Gabi] {
        println!("{profile:?} profile");
        link_title(profile, &core, &archives)?;
    }
    Ok(())
}

/// The core, and the archives in the order of the walk.
pub fn make(folder: &Path) -> Outcome<(PathBuf, Vec<PathBuf>)> {
    let core = compile(folder, "core", CORE)?;
    let video = archive(folder, "libvideo.a", &VIDEO)?;
    Ok((core, vec![video, archive(folder, "libsound.a", &AUDIO)?]))
}

/// Answers the members that were merged, each as `archive(member)`.
pub fn link_title(profile: Profile, core: &Path, archives: &[PathBuf]) -> Outcome<Vec<String>> {
    let files: Vec<_> = archives.iter().map(fs::read).collect::<Result<_, _>>()?;
    let mut link = Link::with_profile(profile, hidvorn::Capacity::BOUNDS)?;
    let mut holders = Holders::default();
    holders.note("core.o", &link.merge_file(&fs::read(core)?)?);

    // An archive of eight bytes has no members and no index: linkers take it, and it is left out.
    let with_members = |at: &usize| files[*at].len() > 8;
    let walked: Vec<usize> = (0..files.len()).filter(with_members).collect();
    let indexes = walked.iter().map(|at| index(&files[*at])).collect::<Outcome<Vec<_>>>()?;
    // A member by its archive's number in the walk and its offset there.
    let member_at = |(archive, offset): (usize, u64)| -> Outcome<(String, &[u8])> {
        let from = walked[archive];
        let (name, file) = member(&files[from], offset as usize)?;
        let library = archives[from].file_name().unwrap_or_default().to_string_lossy();
        Ok((format!("{library}({name})"), file))
    };
    let mut walk = PendingArchive::of(&indexes)?;
    let (mut taken, mut names) = (BTreeSet::new(), Vec::new());
    let passes = loop {
        let offered = match walk.next(&link)? {
            Step::Member(member) => member,
            Step::Done { passes } => break passes,
        };
        let (name, file) = member_at((offered.archive, offered.offset))?;
        let required: Vec<_> = walk.required(&offered).map(String::from_utf8_lossy).collect();
        println!("pass {} offers {name}, for {}", offered.passes, required.join(", "));
        if walk.admits(&link, &offered, &Object::read(file)?)? {
            holders.note(&name, &link.merge_file(file)?);
            taken.insert((offered.archive, offered.offset));
            names.push(name);
        }
    };

    // At the end of the whole link, of every archive each member that was not taken.
    let entries = (0..walk.entry_count()).filter_map(|entry| walk.entry(entry));
    let members: BTreeSet<_> = entries.map(|entry| (entry.archive, entry.offset)).collect();
    for at in members.difference(&taken) {
        let (name, file) = member_at(*at)?;
        warn(&link, &holders, &name, &Object::read(file)?)?;
    }
    let mute = link.get_global(link.find(b"mute").ok_or("the core has a mute")?)?;
    let holder = holders.of(&mute).ok_or("the core defines mute")?;
    println!("done after {passes} passes: mute is held by the {} one of {holder}", strength(&mute));

    // The mixer is the entry: what it doesn't reach is dropped.
    let entry = link.get_global(link.find(b"mixer").ok_or("the core has a mixer")?)?.id;
    let collected = link.gc_sections(&vec![0; link.symbol_count()], Some(entry))?;
    println!("{} sections dropped", collected.sections.len());
    Ok(names)
}
