//! Which members a walk over archives that need each other takes: those that `ld` takes between
//! `--start-group` and `--end-group`. From the files of examples/title.rs; needs `cc`, `ar` and `ld`.
#[allow(dead_code)]
#[path = "../examples/title.rs"]
mod title;

use hidvorn::Profile;
use std::collections::BTreeSet;
use std::path::{Path, PathBuf};
use std::process::Command;
use std::{env, fs, process};

/// Whether `ld` links them, and the members that it takes, each as `archive(member)`.
fn ld(folder: &Path, core: &Path, archives: &[PathBuf], group: bool) -> (bool, BTreeSet<String>) {
    let map = folder.join("map");
    let mut command = Command::new("ld");
    command.args(["-e", "mixer", "-o"]).arg(folder.join("title")).arg("-Map").arg(&map).arg(core);
    let around = |word| group.then_some(word);
    command.args(around("--start-group")).args(archives).args(around("--end-group"));
    let linked = command.output().expect("ld is there").status.success();
    let text = fs::read_to_string(map).unwrap_or_default();
    let own = format!("{}/", folder.display());
    let members = text.lines().filter_map(|line| line.strip_prefix(&own));
    let members = members.map(|line| line.split_whitespace().next().unwrap_or_default());
    (linked, members.filter(|word| word.ends_with(".o)")).map(String::from).collect())
}

#[test]
fn the_members_are_those_of_ld() {
    for program in ["cc", "ar", "ld"] {
        if Command::new(program).arg("--version").output().is_err() {
            return eprintln!("{program} is missing: nothing is compared");
        }
    }
    let folder = env::temp_dir().join(format!("hidvorn-group-{}", process::id()));
    fs::create_dir_all(&folder).unwrap();
    let (core, mut archives) = title::make(&folder).unwrap();
    let all =
        ["libsound.a(beep.o)", "libsound.a(sound.o)", "libvideo.a(blank.o)", "libvideo.a(frame.o)"];
    let all: BTreeSet<_> = all.map(String::from).into();
    for _ in 0..2 {
        for profile in [Profile::Old, Profile::Gabi] {
            let members = title::link_title(profile, &core, &archives).unwrap();
            assert_eq!(members.len(), 4);
            assert_eq!(members.into_iter().collect::<BTreeSet<_>>(), all);
        }
        assert_eq!(ld(&folder, &core, &archives, true), (true, all.clone()));
        // One after the other they leave a name undefined, in whichever order.
        assert!(!ld(&folder, &core, &archives, false).0);
        archives.reverse();
    }
    // An archive without members, of eight bytes.
    let empty = folder.join("libempty.a");
    fs::write(&empty, b"!<arch>\n").unwrap();
    archives.insert(1, empty);
    let members = title::link_title(Profile::Gabi, &core, &archives).unwrap();
    assert_eq!(members.into_iter().collect::<BTreeSet<_>>(), all);
    assert_eq!(ld(&folder, &core, &archives, true), (true, all));
    fs::remove_dir_all(&folder).unwrap();
}
