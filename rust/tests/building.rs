//! `rust/archive`, `build.rs` and `./crn`, in small checkouts with a toolchain of scripts: where an archive comes from, and what a person
//! is told.
mod common;
use common::{room, root, told};
use std::io::{BufRead, BufReader, Read};
use std::path::{Path, PathBuf};
use std::process::{Command, Stdio};
use std::sync::{Mutex, MutexGuard};
use std::time::Duration;

fn script(path: &Path, text: &str) {
    std::fs::create_dir_all(path.parent().unwrap()).unwrap();
    std::fs::write(path, format!("#!/bin/sh\n{text}\n")).unwrap();
    let permissions = std::os::unix::fs::PermissionsExt::from_mode(0o755);
    std::fs::set_permissions(path, permissions).unwrap();
}

/// Makes an archive of a checkout, and counts its calls.
const RT: &str = "echo rt >>../../../calls; mkdir -p out; { echo '!<arch>'; cat ../one/lib.rt; } >out/lib${PWD##*/}.a";

/// What a person without the means is told.
const ELSEWHERE: &str = "an archive that was made elsewhere can be named by CRUNCH_ABI_ARCHIVE=path\n";

/// What the scripts call, without flock.
const TOOLS: &str = "sh cat cp cut date dirname env find mkdir mktemp mv pwd readlink rm sed sha256sum sleep sort tail tee touch uname";

/// A room with a folder of tools, a kit with this `rt`, and checkouts. One at a time: a script that is open to be written can't be run, and
/// what another thread starts has it open for a moment.
struct Place(PathBuf, #[allow(dead_code)] MutexGuard<'static, ()>);

impl Place {
    fn new(name: &str, rt: &str) -> Place {
        static ONE: Mutex<()> = Mutex::new(());
        let one = ONE.lock().unwrap_or_else(|failed| failed.into_inner());
        let place = Place(room(name).canonicalize().unwrap(), one);
        script(&place.0.join("kit/bin/rt"), rt);
        std::fs::write(place.0.join("kit/KIT-ID"), "a kit of scripts\n").unwrap();
        std::fs::create_dir(place.0.join("tools")).unwrap();
        TOOLS.split(' ').for_each(|tool| place.tool(tool));
        place.checkout("a");
        place
    }

    /// A tool of this machine.
    fn tool(&self, name: &str) {
        let path = std::env::var_os("PATH").unwrap();
        let found = std::env::split_paths(&path).map(|folder| folder.join(name)).find(|file| file.is_file());
        std::os::unix::fs::symlink(found.unwrap_or_else(|| panic!("no {name} in PATH")), self.0.join("tools").join(name)).unwrap();
    }

    /// A checkout with one crate, whose text is the checkout's name, and the folder of what is exported.
    fn checkout(&self, name: &str) -> PathBuf {
        let checkout = self.0.join(name);
        std::fs::create_dir_all(checkout.join("rust/src")).unwrap();
        std::fs::create_dir_all(checkout.join("crates/one")).unwrap();
        std::fs::create_dir_all(checkout.join("crates/crunch_abi_c")).unwrap();
        std::fs::write(checkout.join("crates.txt"), "one:\n").unwrap();
        std::fs::write(checkout.join("crates/one/lib.rt"), name).unwrap();
        ["crn", "rust/archive", "rust/build.rs"].iter().for_each(|file| {
            std::fs::copy(root(file), checkout.join(file)).unwrap();
        });
        checkout
    }

    /// A command with the tools, the kit and no settings.
    fn command(&self, program: impl AsRef<Path>, with_kit: bool) -> Command {
        let mut command = Command::new(self.0.join(program));
        let folders = [self.0.join("kit/bin"), self.0.join("tools")];
        command.env("PATH", std::env::join_paths(&folders[if with_kit { 0 } else { 1 }..]).unwrap());
        command.env_remove("RATTLE_HOME").env_remove("CRUNCH_ABI_ARCHIVE");
        command
    }

    /// `rust/archive` of checkout a, for the machine that any kit makes archives for.
    fn archive(&self, with_kit: bool) -> Command {
        let mut command = self.command("a/rust/archive", with_kit);
        command.args(["crunch_abi", "x86_64"]);
        command
    }

    /// How often `rt` was called.
    fn calls(&self) -> usize {
        std::fs::read_to_string(self.0.join("calls")).map_or(0, |calls| calls.lines().count())
    }
}

/// The path that was printed, and what is there.
fn printed(out: &str) -> (PathBuf, String) {
    let path = PathBuf::from(out.strip_suffix('\n').unwrap());
    let archive = std::fs::read_to_string(&path).unwrap();
    (path, archive)
}

#[test]
fn of_two_archives_at_once_one_is_made() {
    for flock in [true, false] {
        let place = Place::new(if flock { "at-once-flock" } else { "at-once-mkdir" }, &format!("[ -f ../../../quick ] || sleep 1; {RT}"));
        if flock {
            place.tool("flock");
        }
        let start = || place.archive(true).stdout(Stdio::piped()).stderr(Stdio::piped()).spawn().unwrap();
        let both = [start(), start()].map(|child| told(child.wait_with_output().unwrap()));
        assert!(both.iter().all(|(status, ..)| *status == 0), "{both:?}");
        assert_eq!(both[0].1, both[1].1);
        assert_eq!((printed(&both[0].1).1.as_str(), place.calls()), ("!<arch>\na", 1));
        let waited = |said: &(i32, String, String)| said.2.starts_with("rust/archive: waiting for another build in this folder");
        assert_eq!(both.iter().filter(|said| waited(said)).count(), 1, "{both:?}");
        // nothing is left that the next one would wait for
        std::fs::write(place.0.join("quick"), "").unwrap();
        std::fs::write(place.0.join("a/crates/one/lib.rt"), "anew").unwrap();
        let (status, out, said) = told(place.archive(true).output().unwrap());
        assert_eq!((status, printed(&out).1.as_str(), place.calls()), (0, "!<arch>\nanew", 2));
        assert!(!said.contains("waiting"), "{said}");
    }
}

/// A crate is shown before the one after it is done: this `rt` waits until somebody has seen it.
#[test]
fn each_crate_is_shown_as_it_is_proved() {
    let waits = "echo 'crate one: modules loaded=0 checked=9'; echo 'logic=proved functions=1 sum=0'; \
                 for i in 0 1 2 3 4 5 6 7 8 9; do [ -f ../../../seen ] || sleep 1; done; [ -f ../../../seen ] || exit 1; \
                 mkdir -p out; echo '!<arch>' >out/libcrunch_abi_c.a";
    let place = Place::new("shown", waits);
    let mut child = place.archive(true).stdout(Stdio::piped()).stderr(Stdio::piped()).spawn().unwrap();
    let mut said = BufReader::new(child.stderr.take().unwrap());
    let (mut line, mut rest) = (String::new(), String::new());
    said.read_line(&mut line).unwrap();
    assert_eq!(line, "rust/archive: proving crunch_abi and the crates that it uses\n");
    line.clear();
    said.read_line(&mut line).unwrap();
    std::fs::write(place.0.join("seen"), "").unwrap();
    said.read_to_string(&mut rest).unwrap();
    assert_eq!((line.as_str(), rest.as_str(), child.wait().unwrap().code()), ("  one proved (functions: 1)\n", "", Some(0)));
}

#[test]
fn without_a_toolchain_an_archive_that_fits_is_left_and_no_other_made() {
    let place = Place::new("no-rt", RT);
    let no = format!("rust/archive: the Rattle toolchain is missing: there is no rt in PATH; {ELSEWHERE}");
    assert_eq!(told(place.archive(false).output().unwrap()), (1, String::new(), no.clone()));
    let (_, made, _) = told(place.archive(true).output().unwrap());
    assert_eq!(told(place.archive(false).output().unwrap()), (0, made.clone(), String::new()));
    assert_eq!((told(place.archive(true).output().unwrap()), place.calls()), ((0, made, String::new()), 1));
    // another kit makes it anew
    std::fs::write(place.0.join("kit/KIT-ID"), "another kit\n").unwrap();
    assert_eq!((told(place.archive(true).output().unwrap()).0, place.calls()), (0, 2));
    std::fs::write(place.0.join("a/crates/one/lib.rt"), "edited").unwrap();
    assert_eq!(told(place.archive(false).output().unwrap()), (1, String::new(), no));
}

#[test]
fn a_processor_that_no_archive_can_be_made_for_is_told() {
    let place = Place::new("machine", RT);
    let (_, made, _) = told(place.archive(true).output().unwrap());
    let vax = place.command("a/rust/archive", true).args(["crunch_abi", "vax"]).output().unwrap();
    let no = format!("rust/archive: for vax no archive can be made here; {ELSEWHERE}");
    assert_eq!(told(vax), (1, String::new(), no));
    // and the other's is left alone
    assert_eq!((printed(&made).1.as_str(), place.calls()), ("!<arch>\na", 1));
}

/// build.rs as a program, which cargo would run.
fn build_script(place: &Place) {
    let (made, rustc) = (place.0.join("build-script"), Path::new(env!("CARGO")).with_file_name("rustc"));
    let mut command = Command::new(rustc);
    command.args(["--edition", "2021", "-o"]).arg(made).arg(root("rust/build.rs")).env("CARGO_MANIFEST_DIR", "/nowhere");
    assert_eq!(told(command.output().unwrap()), (0, String::new(), String::new()));
}

/// It, in a folder, for x86-64 Linux, if nothing else is said.
fn build(place: &Place, with_kit: bool, package: &Path, settings: &[(&str, &str)]) -> (i32, String, String) {
    let out = place.0.join("out");
    let _ = std::fs::remove_dir_all(&out);
    std::fs::create_dir(&out).unwrap();
    let target = [("TARGET", "x86_64-unknown-linux-gnu"), ("CARGO_CFG_TARGET_OS", "linux"), ("CARGO_CFG_TARGET_ARCH", "x86_64")];
    let mut command = place.command("build-script", with_kit);
    command.current_dir(package).env("CARGO_MANIFEST_DIR", package).env("OUT_DIR", &out).env("CARGO_CFG_TARGET_POINTER_WIDTH", "64");
    command.envs(target).envs(settings.iter().copied());
    told(command.output().unwrap())
}

/// What it has copied to link with.
fn linked(place: &Place) -> String {
    std::fs::read_to_string(place.0.join("out/libcrunch_abi.a")).unwrap()
}

/// One program, which was compiled in neither, and no path that cargo keeps leads out of the checkout.
#[test]
fn each_checkout_links_its_own_archive() {
    let place = Place::new("two", RT);
    build_script(&place);
    for name in ["a", "b"] {
        let package = place.checkout(name).join("rust");
        let (status, out, _) = build(&place, true, &package, &[]);
        assert_eq!((status, linked(&place)), (0, format!("!<arch>\n{name}")));
        let watched: Vec<&str> = out.lines().filter_map(|line| line.strip_prefix("cargo::rerun-if-changed=")).collect();
        let stays = |path: &&str| !path.starts_with('/') && package.join(path).exists();
        assert!(watched.contains(&"../crates/one/lib.rt") && watched.iter().all(stays), "{out}");
        assert!(out.contains(&format!("cargo::rustc-link-search=native={}\n", place.0.join("out").display())));
    }
}

#[test]
fn a_named_archive_is_linked_without_a_toolchain() {
    let place = Place::new("named", RT);
    build_script(&place);
    let (named, package) = (place.0.join("elsewhere.a"), place.0.join("a/rust"));
    std::fs::write(&named, "!<arch>\nelsewhere").unwrap();
    let name = |archive: &str| build(&place, false, &package, &[("CRUNCH_ABI_ARCHIVE", archive)]);
    let (status, out, said) = name(named.to_str().unwrap());
    assert_eq!((status, said.as_str(), linked(&place).as_str()), (0, "", "!<arch>\nelsewhere"));
    assert!(out.contains(&format!("cargo::rerun-if-changed={}\n", named.display())));
    // from the package's folder, as cargo has it
    assert_eq!((name("../../elsewhere.a").0, linked(&place).as_str()), (0, "!<arch>\nelsewhere"));
    let missing = place.0.join("missing.a");
    let (status, _, said) = name(missing.to_str().unwrap());
    let no = format!("crunch-proved: CRUNCH_ABI_ARCHIVE names {}, which can't be read: No such file", missing.display());
    assert!(status == 1 && said.starts_with(&no), "{said}");
    let (status, _, said) = name(root("README.md").to_str().unwrap());
    assert_eq!((status, said), (1, format!("crunch-proved: {} is no archive\n", root("README.md").display())));
    // an empty name is none
    let (status, _, said) = name("");
    assert!(status == 1 && said.contains("there is no rt in PATH"), "{said}");
    assert_eq!(place.calls(), 0);
}

#[test]
fn a_target_without_an_archive_is_told() {
    let place = Place::new("targets", RT);
    build_script(&place);
    let package = place.0.join("a/rust");
    let told = |target: &str, setting: (&str, &str)| {
        let (status, _, said) = build(&place, true, &package, &[("TARGET", target), setting]);
        assert_eq!(status, 1);
        said
    };
    let no = format!("crunch-proved: for x86_64-pc-windows-gnu no archive can be made here, only for Linux; {ELSEWHERE}");
    assert_eq!(told("x86_64-pc-windows-gnu", ("CARGO_CFG_TARGET_OS", "windows")), no);
    let no = "crunch-proved: the proved archive is for 64-bit processors, and i686-unknown-linux-gnu is another\n";
    assert_eq!(told("i686-unknown-linux-gnu", ("CARGO_CFG_TARGET_POINTER_WIDTH", "32")), no);
    let no = format!("rust/archive: for vax no archive can be made here; {ELSEWHERE}crunch-proved: rust/archive made no archive for vax");
    let said = told("vax-linux", ("CARGO_CFG_TARGET_ARCH", "vax"));
    assert!(said.starts_with(&no), "{said}");
    // a package, as cargo unpacks it
    let outside = place.0.join("a/target/package");
    std::fs::create_dir_all(&outside).unwrap();
    let (status, _, said) = build(&place, true, &outside, &[]);
    let no = format!("crunch-proved: the package stands outside its repository, where the proved archive would be made; {ELSEWHERE}");
    assert_eq!((status, said, place.calls()), (1, no, 0));
}

/// A `cargo` that makes a `crn` which tells what it was built by.
const CARGO: &str = "echo cargo >>../../builds; mkdir -p ../target/cargo/release; cd ../target/cargo/release; \
                     of=$(cat ../../../crates/one/lib.rt) by=${CRUNCH_ABI_ARCHIVE-own}; \
                     { echo '#!/bin/sh'; echo \"echo '$OLDPWD' $of '$by'\"; } >crn; chmod +x crn";

#[test]
fn crn_is_built_anew_where_anything_changed() {
    let place = Place::new("a room for crn", RT);
    ["flock", "chmod"].iter().for_each(|tool| place.tool(tool));
    script(&place.0.join("tools/cargo"), CARGO);
    let builds = || std::fs::read_to_string(place.0.join("builds")).map_or(0, |builds| builds.lines().count());
    let says = |checkout: &str, text: &str, built: usize| {
        let (status, out, said) = told(place.command(format!("{checkout}/crn"), true).current_dir("/").output().unwrap());
        assert_eq!((status, out), (0, format!("{}/{checkout}/rust {text} own\n", place.0.display())), "{said}");
        assert_eq!((builds(), said.contains("crn: building")), (built, !said.is_empty()));
    };
    // a file that is written at once would be of one time with what was made
    let later = || std::thread::sleep(Duration::from_millis(50));
    says("a", "a", 1);
    says("a", "a", 1);
    later();
    std::fs::write(place.0.join("a/crates/one/lib.rt"), "edited").unwrap();
    says("a", "edited", 2);
    // copied with all that was built, and with an edit that is newer than nothing
    std::fs::write(place.0.join("a/crates/one/lib.rt"), "late").unwrap();
    later();
    let copied = Command::new("cp").arg("-r").arg(place.0.join("a")).arg(place.0.join("b")).status().unwrap();
    assert!(copied.success() && Command::new("touch").arg(place.0.join("b/target/cargo/release/crn")).status().unwrap().success());
    says("b", "late", 3);
    says("b", "late", 3);
    // moved
    std::fs::rename(place.0.join("b"), place.0.join("c")).unwrap();
    says("c", "late", 4);
    // made by cargo alone, which is asked whether it still holds
    later();
    let made = place.0.join("c/target/cargo/release/crn");
    script(&made, "echo by another archive");
    assert!(told(place.command("c/crn", true).output().unwrap()) == (0, format!("{}/c/rust late own\n", place.0.display()), String::new()));
    assert_eq!(builds(), 5);
    // a file that went
    later();
    std::fs::write(place.0.join("c/rust/src/gone.rs"), "").unwrap();
    says("c", "late", 6);
    later();
    std::fs::remove_file(place.0.join("c/rust/src/gone.rs")).unwrap();
    says("c", "late", 7);
    // an archive that is named, from where the person stands, and no toolchain
    std::fs::write(place.0.join("named.a"), "!<arch>\n").unwrap();
    let named = |name: &str| told(place.command("c/crn", false).current_dir(&place.0).env("CRUNCH_ABI_ARCHIVE", name).output().unwrap());
    let (calls, told_by) = (place.calls(), format!("{0}/c/rust late {0}/named.a\n", place.0.display()));
    assert_eq!(named("named.a").1, told_by);
    assert_eq!((named("./named.a"), builds(), place.calls()), ((0, told_by, String::new()), 8, calls));
    assert_eq!(named("none.a"), (1, String::new(), "crn: CRUNCH_ABI_ARCHIVE names none.a, and there is no such file\n".into()));
    // and its own again
    says("c", "late", 9);
}

/// Of a crate's exports the archive is made, for any processor of its machine's kind, and each other machine's has a folder of its own.
#[test]
fn an_archive_is_of_its_crate_and_its_processor() {
    let place = Place::new("crates", &format!("echo ${{PWD##*/}} $* >>../../../words; {RT}"));
    std::fs::create_dir(place.0.join("a/crates/draw_bench_c")).unwrap();
    for (crate_name, machine) in [("crunch_abi", "x86_64"), ("draw_bench", "x86_64"), ("crunch_abi", "aarch64")] {
        let (status, out, said) = told(place.command("a/rust/archive", true).args([crate_name, machine]).output().unwrap());
        let folder = if machine == std::env::consts::ARCH { String::new() } else { format!("{machine}/") };
        let path = place.0.join(format!("a/target/host/{folder}lib{crate_name}.a"));
        assert_eq!((status, printed(&out)), (0, (path, "!<arch>\na".to_string())), "{said}");
    }
    let words = "crunch_abi_c lib --cpu x86-64\ndraw_bench_c lib --cpu x86-64\ncrunch_abi_c lib --target aarch64-unknown-linux-gnu\n";
    assert_eq!(std::fs::read_to_string(place.0.join("words")).unwrap(), words);
}

/// What `rt` left before is not taken for one.
#[test]
fn of_a_crate_that_is_not_proved_there_is_no_archive() {
    let no = "rt: the library one did not build, so nothing above it was checked";
    let place = Place::new("not-proved", &format!("[ ! -f ../../../wrong ] || {{ echo '{no}'; exit 1; }}; {RT}"));
    assert_eq!(told(place.archive(true).output().unwrap()).0, 0);
    std::fs::write(place.0.join("wrong"), "").unwrap();
    std::fs::write(place.0.join("a/crates/one/lib.rt"), "edited").unwrap();
    let (status, out, said) = told(place.archive(true).output().unwrap());
    assert!((status, out.as_str(), place.calls()) == (1, "", 1) && said.contains(no), "{said}");
    assert!(!place.0.join("a/target/host/libcrunch_abi.a").exists());
}

/// Cargo would build all anew whenever `rt` ran.
#[test]
fn what_rt_leaves_is_not_watched() {
    let place = Place::new("left", RT);
    build_script(&place);
    for _ in 0..2 {
        let (status, out, said) = build(&place, true, &place.0.join("a/rust"), &[]);
        assert!(status == 0 && out.contains("=../crates/one/lib.rt\n") && !out.contains("crunch_abi_c"), "{out}{said}");
    }
    assert!(place.0.join("a/crates/crunch_abi_c/out/libcrunch_abi_c.a").exists());
}
