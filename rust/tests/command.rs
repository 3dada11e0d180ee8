//! `crn`, run as a person would.
mod common;
use common::{crn, hash, names, of_format, room, root, sample, samples, shown, told};
use std::ffi::OsStr;
use std::io::{BufRead, BufReader, Write};
use std::os::unix::ffi::OsStrExt;
use std::os::unix::process::ExitStatusExt;
use std::path::Path;
use std::process::{Child, Command, Stdio};
use std::sync::atomic::{AtomicUsize, Ordering};
use std::sync::mpsc;
use std::time::{Duration, Instant};

/// The commands that take files.
const VERBS: [&str; 6] = ["info", "look", "check", "unpack", "dds", "png"];

const NO_CRN: &str = "this is no CRN file: it does not begin with the letters Hx, or is shorter than any CRN file";

#[test]
fn info_is_what_the_readme_shows() {
    // where it has to be built, it says so
    assert!(Command::new(root("crn")).arg("version").output().unwrap().status.success());
    let command = "./crn info samples/*.crn";
    let run = Command::new("sh").args(["-c", command]).current_dir(root("")).output().unwrap();
    assert_eq!(told(run), (0, shown(command), String::new()));
}

#[test]
fn other_commands_say_what_the_readme_shows() {
    let piped = "head -c 500 samples/dxt5.crn | ./crn check - samples";
    for command in [piped, "./crn look samples", "./crn dds samples/cube.crn -o - | wc -c"] {
        let script = command.replace("./crn", env!("CARGO_BIN_EXE_crn"));
        let run = Command::new("sh").args(["-c", &script]).current_dir(root("")).output().unwrap();
        assert_eq!((String::from_utf8_lossy(&run.stdout), &run.stderr[..]), (shown(command).into(), &b""[..]));
    }
}

/// The one that writes files, in a folder of its own.
#[test]
fn png_says_what_the_readme_shows() {
    let room = room("readme-png");
    std::os::unix::fs::symlink(root("samples"), room.join("samples")).unwrap();
    let run = Command::new(env!("CARGO_BIN_EXE_crn")).args(["png", "samples/cube.crn", "samples/meadow.crn"]).current_dir(&room).output();
    assert_eq!(told(run.unwrap()), (0, shown("./crn png samples/cube.crn samples/meadow.crn"), String::new()));
}

#[test]
fn info_goes_on_after_a_file_that_is_refused() {
    let (status, out, err) = told(crn(&["info", "README.md", "samples/cube.crn"]));
    assert_eq!((status, err), (1, format!("crn: README.md: refused, 1: {NO_CRN}\n")));
    assert!(out.contains("samples/cube.crn: 443 bytes, DXT1, 16 x 16 pixels, 5 levels, 6 faces\n"), "{out}");
}

/// The file of a level that ends too soon.
fn cut_level(folder: &Path) -> String {
    let path = folder.join("cut.crn");
    std::fs::write(&path, common::cut_level()).unwrap();
    path.to_str().unwrap().into()
}

#[test]
fn info_tells_which_level_is_refused() {
    let path = cut_level(&room("info-level"));
    let (status, out, err) = told(crn(&["info", &path]));
    assert_eq!((status, err.as_str()), (1, ""));
    let asked = "\n  level 1: refused, 8: the compressed data end too soon: a part of the file is damaged or cut short (level 1, at byte ";
    assert!(out.contains(asked), "{out}");
    assert!(out.contains("\n      0  64 x 64"), "{out}");
}

/// cube.crn with a number in each field that has no say, and three bytes after its data.
fn marked() -> Vec<u8> {
    let mut file = sample("cube.crn");
    file[4..6].copy_from_slice(&[0x0A, 0x0B]);
    file[10..12].copy_from_slice(&[0x0C, 0x0D]);
    file[19..33].copy_from_slice(&[0x00, 0x21, 0, 0, 0, 0x22, 0xDE, 0xAD, 0xBE, 0xEF, 0, 0, 0, 0x23]);
    file.extend([1, 2, 3]);
    file
}

#[test]
fn info_shows_the_header_also_where_the_palettes_are_refused() {
    let room = room("info-header");
    let mut file = marked();
    std::fs::write(room.join("whole.crn"), &file).unwrap();
    // the colour endpoints' segment, from byte 90 on, begins with a table of 16,383 symbols
    file[90..93].fill(0xFF);
    std::fs::write(room.join("spoilt.crn"), &file).unwrap();
    let header = "446 bytes, DXT1, 16 x 16 pixels, 5 levels, 6 faces\n  \
        header: 90 bytes, stored CRC 0a0b; data: 443 bytes, stored CRC 0c0d, 3 bytes after the data\n  \
        flags: 0021; reserved: 00000022; user data: deadbeef 00000023\n  \
        palettes: 20 colour endpoints, 20 colour selectors\n";
    let (status, out, err) = crn_in(&room, &["info", "whole.crn"]);
    assert!(status == 0 && err.is_empty() && out.starts_with(&format!("whole.crn: {header}  level   pixels")), "{out}{err}");
    let (status, out, err) = crn_in(&room, &["info", "spoilt.crn"]);
    let refused = "refused, 6: the compressed data are damaged: a code table makes no sense (colour endpoints, at byte ";
    assert!(status == 1 && err.is_empty() && out.starts_with(&format!("spoilt.crn: {header}  {refused}")), "{out}{err}");
    // a header beyond its limits is shown as it stands
    file[12..14].copy_from_slice(&5000u16.to_be_bytes());
    file[18] = 77;
    std::fs::write(room.join("wide.crn"), &file).unwrap();
    let (status, out, err) = crn_in(&room, &["info", "wide.crn"]);
    assert_eq!((status, err.as_str()), (1, ""));
    assert!(out.starts_with("wide.crn: 446 bytes, format 77, 5000 x 16 pixels, 5 levels, 6 faces\n"), "{out}");
    assert!(out.contains("\n  refused, 2: ") && out.ends_with(" (width is 5,000, and may be 1 to 4,096)\n"), "{out}");
}

#[test]
fn info_has_all_of_it_as_json() {
    let room = room("info-json");
    let mut file = marked();
    // level 1 ends after a byte
    file[78..82].copy_from_slice(&402u32.to_be_bytes());
    std::fs::write(room.join("a.crn"), &file).unwrap();
    file[290..293].fill(0xFF);
    std::fs::write(room.join("b.crn"), &file).unwrap();
    let (status, out, err) = crn_in(&room, &["info", "--json", "a.crn", "b.crn", "c.crn"]);
    assert_eq!((status, err.as_str()), (3, ""));
    let lines: Vec<&str> = out.lines().collect();
    let header = "\"accepted\":false,\"bytes\":446,\"bytes_after_data\":3,\"format_name\":\"DXT1\",\"header\":{\"header_size\":90,\
        \"header_crc16\":2571,\"data_size\":443,\"data_crc16\":3085,\"width\":16,\"height\":16,\"levels\":5,\"faces\":6,\"format\":0,\
        \"flags\":33,\"reserved\":34,\"userdata0\":3735928559,\"userdata1\":35,\
        \"color_endpoints\":{\"offset\":90,\"size\":153,\"count\":20},\
        \"color_selectors\":{\"offset\":243,\"size\":47,\"count\":20},\"alpha_endpoints\":{\"offset\":0,\"size\":0,\"count\":0},\
        \"alpha_selectors\":{\"offset\":0,\"size\":0,\"count\":0},\"tables\":{\"offset\":290,\"size\":70},\
        \"level_offsets\":[360,401,402,422,432]}";
    let first = "{\"number\":0,\"width\":16,\"height\":16,\"columns\":4,\"rows\":4,\"bytes\":768,\"symbols\":167,\"cutouts\":36}";
    let second = "{\"number\":1,\"width\":8,\"height\":8,\"columns\":2,\"rows\":2,\"bytes\":192,\
        \"refusal\":8,\"level\":1,\"segment\":\"level 1\",\"byte\":401,\"bit\":7,";
    assert!(lines[0].starts_with(&format!("{{\"file\":\"a.crn\",{header},\"levels\":[{first},{second}")), "{}", lines[0]);
    let refused = "\"refusal\":6,\"level\":null,\"segment\":\"tables\",\"byte\":290,\"bit\":0,\
        \"sentence\":\"the compressed data are damaged: a code table makes no sense\",\"reason\":null}";
    assert_eq!(lines[1], format!("{{\"file\":\"b.crn\",{header},{refused}"));
    assert_eq!(lines[2..], ["{\"file\":\"c.crn\",\"accepted\":false,\"bytes\":null,\"error\":\"there is no such file\"}"]);
}

#[test]
fn unpack_writes_a_file_for_each_level_and_face() {
    let out = room("unpack");
    let into = out.to_str().unwrap();
    let (status, said, err) = told(crn(&["unpack", "samples/cube.crn", "--out", into]));
    assert_eq!((status, err.as_str(), said.lines().count()), (0, "", 30));
    assert_eq!(names(&out).len(), 30);
    assert!(said.starts_with(&format!("{into}/cube-level0-face0.dxt1: 128 bytes, 4 x 4 blocks\n")), "{said}");
    // the Rust crate's answer for face 5 of level 0 (samples/answers.txt)
    assert_eq!(hash(std::fs::read(out.join("cube-level0-face5.dxt1")).unwrap()), 0x76cb0c35de08e20f);
    let one = room("unpack-one");
    let (status, said, _) = told(crn(&["unpack", "--level", "2", "samples/dxn.crn", "--out", one.join("new/folder").to_str().unwrap()]));
    assert_eq!((status, said.lines().count(), names(&one.join("new/folder"))), (0, 1, vec!["dxn-level2.dxn".to_string()]));
}

#[test]
fn a_refused_level_leaves_no_file() {
    let out = room("unpack-refused");
    let path = cut_level(&out);
    let into = out.join("blocks");
    let (status, said, err) = told(crn(&["unpack", &path, "--out", into.to_str().unwrap()]));
    assert_eq!((status, said.lines().count()), (1, names(&into).len()));
    assert!(err.contains("level 1: refused, 8: "), "{err}");
    assert!(names(&into).contains(&"cut-level0.dxt1".into()) && !names(&into).contains(&"cut-level1.dxt1".into()));
    let (status, _, err) = told(crn(&["unpack", "samples/dxt1.crn", "--level", "7", "--out", out.join("none").to_str().unwrap()]));
    let why = "level 7: refused, 10: the file has no level of this number; its levels are 0 to 6";
    assert_eq!((status, err), (1, format!("crn: samples/dxt1.crn: {why}\n")));
    assert!(!out.join("none").exists());
}

#[test]
fn nothing_is_written_half() {
    // no file may grow beyond 512 bytes: level 0 does not fit, in the middle of its file
    let one_file = [("dds samples/dxt1.crn -d", "dxt1.dds"), ("png samples/dxt1.crn -d", "dxt1.png")];
    for (words, name) in [("unpack samples/dxt1.crn --out", "dxt1-level0.dxt1")].into_iter().chain(one_file) {
        let out = room("written-half");
        let script = format!("trap '' XFSZ; ulimit -f 1; exec \"$0\" {words} \"$1\"");
        let words = ["-c", &script, env!("CARGO_BIN_EXE_crn"), out.to_str().unwrap()];
        let (status, _, err) = told(Command::new("sh").args(words).current_dir(root("")).output().unwrap());
        assert_eq!(status, 3);
        assert!(err.contains(&format!("{name}: ")), "{err}");
        // the smaller levels are there, and no part of a file
        assert!(names(&out).iter().all(|left| left != name && left.ends_with(".dxt1")), "{:?}", names(&out));
    }
}

#[test]
fn dds_writes_what_unpack_writes_after_a_header() {
    let room = room("dds");
    let (blocks, out) = (room.join("blocks"), room.join("new/folder"));
    let (status, said, err) = told(crn(&["dds", "samples", "-d", out.to_str().unwrap()]));
    assert_eq!((status, err.as_str(), names(&out)), (0, "", samples().iter().map(|name| name.replace(".crn", ".dds")).collect()));
    let into = out.display();
    assert!(said.starts_with(&format!("{into}/cube.dds: 1,232 bytes, 5 levels, 6 faces\n{into}/dxn.dds: 1,520 bytes, 6 levels, 1 face\n")));
    // samples/dds.txt has a line for each, by another way
    let stored = std::fs::read_to_string(root("samples/dds.txt")).unwrap();
    for (line, said) in stored.lines().zip(said.lines()) {
        let stem = line.split_once(".crn ").unwrap().0;
        let dds = std::fs::read(out.join(format!("{stem}.dds"))).unwrap();
        assert_eq!(line, format!("{stem}.crn {} {:016x}", dds.len(), hash(dds.clone())), "{said}");
        told(crn(&["unpack", &format!("samples/{stem}.crn"), "--out", blocks.to_str().unwrap()]));
        let (faces, levels) = (if stem == "cube" { 6 } else { 1 }, 0..13);
        let surface = |face: usize, level: usize| {
            let face = if faces > 1 { format!("-face{face}") } else { String::new() };
            let kind = if ["cube", "meadow"].contains(&stem) { "dxt1" } else { stem };
            std::fs::read(blocks.join(format!("{stem}-level{level}{face}.{kind}"))).unwrap_or_default()
        };
        let all: Vec<u8> = (0..faces).flat_map(|face| levels.clone().flat_map(move |level| surface(face, level))).collect();
        assert!(dds.starts_with(b"DDS \x7C\0\0\0") && dds[128..] == all, "{stem}");
    }
    assert_eq!((stored.lines().count(), said.lines().count()), (6, 6));
}

/// `crn`, run in a folder.
fn crn_in(folder: &Path, words: &[&str]) -> (i32, String, String) {
    told(Command::new(env!("CARGO_BIN_EXE_crn")).args(words).current_dir(folder).output().unwrap())
}

#[test]
fn dds_of_one_file_goes_where_it_is_asked_to() {
    let room = room("dds-one");
    std::fs::write(room.join("one.crn"), sample("dxt1.crn")).unwrap();
    // into the current folder
    assert_eq!(crn_in(&room, &["dds", "one.crn"]), (0, "one.dds: 2,872 bytes, 7 levels, 1 face\n".into(), String::new()));
    assert_eq!(crn_in(&room, &["dds", "-o", "two.x", "one.crn"]), (0, "two.x: 2,872 bytes, 7 levels, 1 face\n".into(), String::new()));
    let made = std::fs::read(room.join("one.dds")).unwrap();
    assert_eq!(made, std::fs::read(room.join("two.x")).unwrap());
    assert_eq!(names(&room), ["one.crn", "one.dds", "two.x"]);
    // to standard output, and nothing besides
    let run = Command::new(env!("CARGO_BIN_EXE_crn")).args(["dds", "one.crn", "-o", "-"]).current_dir(&room).output().unwrap();
    assert_eq!((run.status.code(), run.stdout, run.stderr), (Some(0), made, Vec::new()));
    let (status, out, err) = told(crn(&["dds", "README.md", "-o", "-"]));
    assert_eq!((status, out.as_str(), err), (1, "", format!("crn: README.md: refused, 1: {NO_CRN}\n")));
    let folder = (".", "it is a folder, and a file is wanted");
    for (out, why) in [("none/one.dds", "there is no such folder"), folder, ("/dev/full", "it is no file")] {
        assert_eq!(crn_in(&room, &["dds", "one.crn", "-o", out]), (3, String::new(), format!("crn: {out}: {why}\n")));
    }
    assert_eq!(
        crn_in(&room, &["dds", "one.crn", "-d", "two.x"]),
        (3, String::new(), "crn: two.x: the folder can't be made: File exists (os error 17)\n".into())
    );
    assert_eq!(names(&room), ["one.crn", "one.dds", "two.x"]);
}

#[test]
fn a_refused_file_leaves_no_dds_file() {
    let room = room("dds-refused");
    let cut = cut_level(&room);
    std::fs::write(room.join("swizzled.crn"), of_format("dxt5.crn", 3)).unwrap();
    let said = |name: &str| {
        let path = room.join(name);
        let (status, out, err) = told(crn(&["dds", path.to_str().unwrap(), "-d", room.join("new").to_str().unwrap()]));
        assert_eq!((status, out.as_str(), room.join("new").exists()), (1, "", false));
        err.replace(path.to_str().unwrap(), "FILE")
    };
    assert!(said("cut.crn").starts_with("crn: FILE: level 1: refused, 8: the compressed data end too soon"));
    let letters = "DDS has no letters for this file's format, only for DXT1, DXT5, DXN XY and DXT5A";
    assert_eq!(said("swizzled.crn"), format!("crn: FILE: refused, 16: {letters}\n"));
    // what was there stays, and the other files are written
    let out = room.join("out");
    std::fs::create_dir(&out).unwrap();
    std::fs::write(out.join("cut.dds"), "of yesterday").unwrap();
    let none = room.join("none.crn");
    let (status, said, err) = told(crn(&["dds", "--force", &cut, "samples/dxn.crn", none.to_str().unwrap(), "-d", out.to_str().unwrap()]));
    assert_eq!((status, said), (3, format!("{}/dxn.dds: 1,520 bytes, 6 levels, 1 face\n", out.display())));
    let lines: Vec<&str> = err.lines().collect();
    assert!(lines[0].starts_with(&format!("crn: {cut}: level 1: refused, 8: ")), "{err}");
    assert_eq!(lines[1..], [format!("crn: {}: there is no such file", none.display()), "crn: 1 of 3 files written".into()]);
    assert_eq!(names(&out), ["cut.dds", "dxn.dds"]);
    assert_eq!(std::fs::read(out.join("cut.dds")).unwrap(), b"of yesterday");
}

#[test]
fn no_dds_file_takes_anothers_place() {
    let room = room("dds-names");
    for (folder, name) in [("a", "cube.crn"), ("b", "dxn.crn")] {
        std::fs::create_dir(room.join(folder)).unwrap();
        std::fs::write(room.join(folder).join("same.crn"), sample(name)).unwrap();
    }
    // two files with one name: the first has it
    let (status, out, err) = crn_in(&room, &["dds", "a", "b"]);
    let clash = "crn: b/same.crn: its DDS file would be same.dds, as that of a/same.crn\ncrn: 1 of 2 files written\n";
    assert_eq!((status, out.as_str(), err.as_str()), (3, "same.dds: 1,232 bytes, 5 levels, 6 faces\n", clash));
    let (status, out, err) = crn_in(&room, &["dds", "a", "b", "--force"]);
    assert_eq!((status, out.as_str(), err.as_str()), (3, "same.dds: 1,232 bytes, 5 levels, 6 faces (replaced)\n", clash));
    // not even with --force a file that is read, by its own name, by another way to it, behind a link and further on
    let file = sample("dxt1.crn");
    std::fs::write(room.join("own.dds"), &file).unwrap();
    std::fs::write(room.join("behind.dds"), &file).unwrap();
    std::os::unix::fs::symlink("behind.dds", room.join("behind.crn")).unwrap();
    for (words, out) in [
        (vec!["own.dds"], "own.dds"),
        (vec!["own.dds", "-o", "a/../own.dds"], "a/../own.dds"),
        (vec!["own.dds", "-d", "../dds-names"], "../dds-names/own.dds"),
        (vec!["behind.crn"], "behind.dds"),
    ] {
        let why = format!("crn: {out}: it is one of the files to read, and they are not replaced\n");
        assert_eq!(crn_in(&room, &[&["dds", "--force"], &words[..]].concat()), (3, String::new(), why));
    }
    std::fs::write(room.join("own.crn"), &file).unwrap();
    let (status, _, err) = crn_in(&room, &["dds", "--force", "own.crn", "own.dds"]);
    assert!(status == 3 && err.starts_with("crn: own.dds: it is one of the files to read"), "{err}");
    std::fs::remove_file(room.join("own.crn")).unwrap();
    assert!(std::fs::read(room.join("own.dds")).unwrap() == file && std::fs::read(room.join("behind.dds")).unwrap() == file);
    assert_eq!(names(&room), ["a", "b", "behind.crn", "behind.dds", "own.dds", "same.dds"]);
}

#[test]
fn a_full_disk_is_told() {
    let full = std::fs::OpenOptions::new().write(true).open("/dev/full").unwrap();
    let to_output = ["dds", "png"].map(|verb| [verb, "samples/dxn.crn", "-o", "-"]);
    for words in [&["info", "samples/dxn.crn"][..], &["look", "samples"], &["check", "samples"], &to_output[0], &to_output[1]] {
        let mut run = Command::new(env!("CARGO_BIN_EXE_crn"));
        let run = run.args(words).current_dir(root("")).stdout(full.try_clone().unwrap()).output().unwrap();
        assert_eq!(told(run), (3, String::new(), "crn: standard output: the disk is full\n".into()));
    }
}

#[test]
fn check_tells_how_many_are_accepted() {
    assert_eq!(told(crn(&["check", "samples"])), (0, "6 files: 6 accepted, 0 refused\n".into(), String::new()));
    let room = room("check");
    let cut = cut_level(&room);
    let (status, out, err) = told(crn(&["check", "README.md", &cut, "samples", "samples/make.py", "samples/none.crn"]));
    let wrong = "the compressed data end too soon: a part of the file is damaged or cut short";
    let place = out.split("(level 1, at byte ").nth(1).unwrap().split(')').next().unwrap();
    let asked = format!(
        "README.md: refused, 1: {NO_CRN}\n{cut}: level 1: refused, 8: {wrong} (level 1, at byte {place})\n\
         samples/make.py: refused, 1: {NO_CRN}\nsamples/none.crn: there is no such file\n\
         10 files: 6 accepted, 3 refused, 1 not read\n  2 by 1: {NO_CRN}\n  1 by 8: {wrong}\n"
    );
    assert_eq!((status, out, err.as_str()), (3, asked, ""));
    // without the one that is not there
    assert_eq!(told(crn(&["check", "README.md", &cut, "samples"])).0, 1);
}

#[test]
fn check_as_json_has_a_line_for_each_file() {
    let (status, out, err) = told(crn(&["check", "--json", "samples/dxn.crn", "README.md", "a \"b\".crn"]));
    let asked = format!(
        "{{\"file\":\"samples/dxn.crn\",\"accepted\":true,\"format\":\"DXN XY\",\"width\":32,\"height\":32,\"levels\":6,\"faces\":1,\
         \"symbols\":326,\"cutouts\":0}}\n\
         {{\"file\":\"README.md\",\"accepted\":false,\"refusal\":1,\"level\":null,\"segment\":null,\"byte\":null,\"bit\":null,\
         \"sentence\":\"{NO_CRN}\",\"reason\":null}}\n\
         {{\"file\":\"a \\\"b\\\".crn\",\"accepted\":false,\"error\":\"there is no such file\"}}\n"
    );
    assert_eq!((status, out), (3, asked));
    assert_eq!(err, format!("3 files: 1 accepted, 1 refused, 1 not read\n  1 by 1: {NO_CRN}\n"));
}

#[test]
fn files_that_cant_be_read_are_told() {
    let room = room("unread");
    let path = |name: &str| room.join(name).to_str().unwrap().to_string();
    let (none, long, pipe) = (path("none"), path("long.crn"), path("pipe.crn"));
    std::fs::create_dir(&none).unwrap();
    std::fs::File::create(&long).unwrap().set_len(1 << 32).unwrap();
    assert!(Command::new("mkfifo").arg(&pipe).status().unwrap().success());
    for verb in VERBS {
        for (name, why) in [
            ("nothing.crn", "there is no such file"),
            ("/dev/zero", "it is no file"),
            (&pipe, "it is no file"),
            (&long, "it is longer than 4,294,967,295 bytes, which no CRN file is"),
            (&none, "there is no file below this folder whose name ends in .crn"),
        ] {
            let (status, out, err) = told(crn(&[verb, name]));
            let all = if verb == "check" { "1 file: 0 accepted, 0 refused, 1 not read\n" } else { "" };
            let told_in_its_place = ["check", "look"].contains(&verb);
            let said = if told_in_its_place { out } else { format!("{out}{}", err.strip_prefix("crn: ").unwrap()) };
            assert_eq!((status, said), (3, format!("{name}: {why}\n{all}")), "{verb}");
        }
    }
    let cant = "the folder can't be made: File exists (os error 17)";
    let (status, out, err) = told(crn(&["unpack", "samples/dxn.crn", "--level", "0", "--out", "README.md"]));
    assert_eq!((status, out, err), (3, String::new(), format!("crn: README.md: {cant}\n")));
    let (status, out, err) = told(crn(&["check", "samples", "--files-from", "nothing.txt"]));
    assert_eq!((status, out, err), (3, String::new(), "crn: nothing.txt: there is no such file\n".into()));
}

/// An empty file can be read: it is refused.
#[test]
fn refused_and_unreadable_are_told_apart_by_the_status() {
    let room = room("status");
    std::fs::write(room.join("empty.crn"), b"").unwrap();
    for verb in VERBS {
        for (words, asked) in [(vec!["empty.crn"], 1), (vec!["none.crn"], 3), (vec!["none.crn", "empty.crn"], 3), (vec!["--what"], 2)] {
            assert_eq!(crn_in(&room, &[&[verb], &words[..]].concat()).0, asked, "{verb} {words:?}");
        }
    }
    assert_eq!(names(&room), ["empty.crn"]);
}

#[test]
fn a_command_that_makes_no_sense_is_told() {
    for words in [
        &[][..],
        &["show"],
        &["help", "show"],
        &["version", "2"],
        &["info"],
        &["info", "--force", "samples"],
        &["info", "-x", "samples"],
        &["look"],
        &["look", "--level", "0", "samples"],
        &["look", "-", "-"],
        &["check"],
        &["check", "--xml", "samples"],
        &["check", "--json=yes", "samples"],
        &["check", "--jobs", "0", "samples"],
        &["check", "--jobs", "two", "samples"],
        &["check", "--jobs", "+2", "samples"],
        &["check", "--jobs", "1025", "samples"],
        &["check", "--jobs=2", "--jobs", "2", "samples"],
        &["check", "--files-from"],
        &["check", "--files-from="],
        &["check", "--files-from", "-", "-"],
        &["check", "--null", "samples"],
        &["check", "-", "-"],
        &["unpack"],
        &["unpack", "a", "--level", "two"],
        &["unpack", "a", "--level", "-1"],
        &["unpack", "a", "--level", "4294967296"],
        &["unpack", "a", "--level=1", "--level=1"],
        &["unpack", "a", "--out"],
        &["unpack", "a", "--json"],
        &["dds"],
        &["dds", "a", "--out", "b"],
        &["dds", "a", "-f"],
        &["dds", "a", "-o"],
        &["dds", "a", "b", "-o", "c"],
        &["dds", "samples", "-o", "a"],
        &["dds", "a", "-o", "b", "-d", "c"],
        &["dds", "a", "-d", "b", "-d", "c"],
        &["dds", "a", "-o", "b", "--files-from", "README.md"],
        &["png"],
        &["png", "a", "--out", "b"],
        &["png", "a", "b", "-o", "c"],
        &["png", "samples", "-o", "-"],
        &["png", "a", "-o", "b", "-d", "c"],
        &["png", "a", "--level", "-1"],
        &["png", "a", "--face"],
        &["png", "a", "--face", "+X"],
        &["png", "a", "--face", "4294967296"],
        &["png", "a", "--face", "0", "--all-faces"],
        &["png", "a", "--strip", "--face", "0"],
        &["png", "a", "--strip=yes"],
    ] {
        let (status, out, err) = told(crn(words));
        assert_eq!((status, out.as_str()), (2, ""), "{words:?}");
        assert!(err.starts_with("crn: ") && err.ends_with("; `crn help` has them all\n"), "{err}");
    }
}

#[test]
fn every_command_has_its_help() {
    let (status, all, err) = told(crn(&["help"]));
    assert!(status == 0 && err.is_empty() && all.starts_with("crn: what CRN files"), "{all}");
    assert!(all.lines().all(|line| line.chars().count() <= 120));
    assert_eq!(told(crn(&["--help"])).1, all);
    for verb in VERBS {
        let (status, part, err) = told(crn(&[verb, "samples", "--help"]));
        assert!(status == 0 && err.is_empty() && part.starts_with(&format!("  crn {verb} ")), "{part}");
        assert!(VERBS.iter().all(|other| part.contains(&format!("  crn {other} ")) == (*other == verb)));
        assert!(all.contains(part.split("\n\n").next().unwrap()) && part.contains("Exit status: "));
        for words in [&[verb, "-h"][..], &[verb, "--help", "--what"], &["help", verb]] {
            assert_eq!(told(crn(words)), (0, part.clone(), String::new()));
        }
        // behind -- it is a name
        let (status, out, err) = told(crn(&[verb, "--", "--help"]));
        assert!(status == 3 && format!("{out}{err}").contains("--help: there is no such file"), "{out}{err}");
    }
}

#[test]
fn options_may_stand_anywhere_and_names_may_look_like_them() {
    let room = room("words");
    std::fs::write(room.join("--json"), sample("dxn.crn")).unwrap();
    let one = |out: &str| (0, format!("{out}: 64 bytes, 2 x 2 blocks\n"), String::new());
    assert_eq!(crn_in(&room, &["unpack", "--level=2", "--out=a", "--", "--json"]), one("a/--json-level2.dxn"));
    assert_eq!(crn_in(&room, &["unpack", "./--json", "--out", "b", "--level", "2"]), one("b/--json-level2.dxn"));
    let odd = room.join(OsStr::from_bytes(b"c\xff"));
    let mut run = Command::new(env!("CARGO_BIN_EXE_crn"));
    run.args(["unpack", "--level=2", "./--json"]).arg(OsStr::from_bytes(b"--out=c\xff"));
    assert_eq!(told(run.current_dir(&room).output().unwrap()).0, 0);
    assert_eq!(names(&odd), ["--json-level2.dxn"]);
}

/// `crn` in a folder, with a text on its standard input.
fn crn_given(folder: &Path, words: &[&str], input: &[u8]) -> (i32, String, String) {
    let mut run = piped(Command::new(env!("CARGO_BIN_EXE_crn")).args(words).current_dir(folder));
    // who does not read all of it closes the pipe
    let _ = run.stdin.take().unwrap().write_all(input);
    told(run.wait_with_output().unwrap())
}

fn piped(command: &mut Command) -> Child {
    command.stdin(Stdio::piped()).stdout(Stdio::piped()).stderr(Stdio::piped()).spawn().unwrap()
}

#[test]
fn standard_input_is_a_file() {
    let room = room("stdin");
    let file = sample("dxt1.crn");
    std::fs::write(room.join("a.crn"), &file).unwrap();
    let (status, out, _) = crn_given(&room, &["info", "-"], &file);
    assert_eq!((status, out), (0, crn_in(&room, &["info", "a.crn"]).1.replace("a.crn", "standard input")));
    for verb in ["check", "look"] {
        let (status, out, _) = crn_given(&room, &[verb, "--json", "-"], &file);
        assert!(status == 0 && out.starts_with("{\"file\":\"-\",\"accepted\":true,"), "{out}");
        assert_eq!(crn_given(&room, &[verb, "-"], b"Hx").1.lines().next(), Some(&*format!("standard input: refused, 1: {NO_CRN}")));
    }
    // its bytes are counted, and none is kept
    let mut long = file.clone();
    long.resize(1_000_000, 7);
    let asked = "{\"file\":\"-\",\"accepted\":true,\"bytes\":1000000,\"bytes_after_data\":999199,\"format_name\":\"DXT1\",";
    assert!(crn_given(&room, &["look", "--json", "-"], &long).1.starts_with(asked));
    assert_eq!(crn_given(&room, &["look", "-"], &file[..800]).0, 1);
    assert_eq!(crn_given(&room, &["check", "-", "a.crn"], b"Hx").1.lines().next(), Some(&*format!("standard input: refused, 1: {NO_CRN}")));
    assert_eq!(crn_given(&room, &["dds", "-"], &file), (0, "stdin.dds: 2,872 bytes, 7 levels, 1 face\n".into(), String::new()));
    assert!(crn_given(&room, &["png", "-"], &file).1.starts_with("stdin.png: "));
    let (status, out, _) = crn_given(&room, &["unpack", "--level", "6", "-"], &file);
    assert_eq!((status, out.as_str()), (0, "./stdin-level6.dxt1: 8 bytes, 1 x 1 blocks\n"));
    // a file of this name is reached by another
    std::fs::write(room.join("-"), b"x").unwrap();
    assert!(crn_in(&room, &["check", "./-"]).1.starts_with("./-: refused, 1: "));
    // without an end to it, the header is enough
    for verb in ["check", "look"] {
        let zeros = std::fs::File::open("/dev/zero").unwrap();
        let run = Command::new(env!("CARGO_BIN_EXE_crn")).args([verb, "-"]).stdin(zeros).output().unwrap();
        assert_eq!(told(run).0, 1);
    }
}

#[test]
fn look_tells_what_the_header_says() {
    let room = room("look");
    // levels and palettes are not looked at: a level that ends too soon, tables that are none, a file with bytes after its data
    let spoilt = |at: usize, bytes: &[u8]| {
        let mut file = sample("dxt5.crn");
        file[at..at + bytes.len()].copy_from_slice(bytes);
        file
    };
    let files = [
        ("a.crn", common::cut_level()),
        ("b.crn", spoilt(730, &[0xFF; 2])),
        ("c.crn", marked()),
        ("d.crn", spoilt(12, &5000u16.to_be_bytes())),
        ("e.crn", sample("dxt5.crn")[..1004].to_vec()),
        ("f.crn", b"Hx".to_vec()),
    ];
    files.iter().for_each(|(name, file)| std::fs::write(room.join(name), file).unwrap());
    let limit = "the header is damaged or of another edition: its width, height, levels, faces, format or a palette's size is beyond what \
        a CRN file can have (width is 5,000, and may be 1 to 4,096)";
    let size = "the header is damaged or the file was cut short: its header size or data size does not fit the file (data_size is 1,005, \
        and may be 0 to 1,004)";
    let asked = format!(
        "./a.crn: DXT1, 64 x 64 pixels, 7 levels, 1 face\n./b.crn: DXT5, 48 x 32 pixels, 6 levels, 1 face\n\
         ./c.crn: DXT1, 16 x 16 pixels, 5 levels, 6 faces\n./d.crn: refused, 2: {limit}\n./e.crn: refused, 3: {size}\n\
         ./f.crn: refused, 1: {NO_CRN}\n"
    );
    assert_eq!(crn_in(&room, &["look", "."]), (1, asked.clone(), String::new()));
    assert_eq!(crn_in(&room, &["look", "--", ".", "none.crn"]), (3, format!("{asked}none.crn: there is no such file\n"), String::new()));
    // what check says of the refused ones is the same
    let check = crn_in(&room, &["check", "d.crn", "e.crn", "f.crn"]).1;
    assert!(check.starts_with(&crn_in(&room, &["look", "d.crn", "e.crn", "f.crn"]).1), "{check}");
}

/// A line of JSON is that of `crn info` up to the levels, also of a file that is refused.
#[test]
fn look_as_json_is_what_info_says_without_the_levels() {
    let room = room("look-json");
    std::fs::write(room.join("a.crn"), marked()).unwrap();
    std::fs::write(room.join("b.crn"), "x").unwrap();
    std::fs::write(room.join("d.crn"), [&marked()[..12], &[0x10, 1], &marked()[14..]].concat()).unwrap();
    std::fs::write(room.join("e.crn"), &marked()[..442]).unwrap();
    let (status, out, err) = crn_in(&room, &["look", "--json", "a.crn", "b.crn", "c.crn", "d.crn", "e.crn"]);
    assert_eq!((status, err.as_str()), (3, ""));
    let info = crn_in(&room, &["info", "--json", "a.crn", "b.crn", "c.crn", "d.crn", "e.crn"]).1;
    assert!(["\"width\":4097,", "\"reason\":\"width is 4,097, and may be 1 to 4,096\""].iter().all(|words| out.contains(words)), "{out}");
    let (lines, asked): (Vec<&str>, Vec<&str>) = (out.lines().collect(), info.lines().collect());
    assert_eq!(lines[0].strip_suffix('}'), asked[0].split_once(",\"levels\":[{").map(|(before, _)| before));
    assert_eq!(lines[1..], asked[1..]);
    for name in samples() {
        let [look, info] = ["look", "info"].map(|verb| told(crn(&[verb, "--json", &format!("samples/{name}")])).1);
        assert_eq!(look.trim_end().strip_suffix('}'), info.split_once(",\"levels\":[{").map(|(before, _)| before));
    }
}

/// A library that tells of each `read` of a file how many bytes it gave: to be loaded before others.
fn reads_told(room: &Path) -> std::path::PathBuf {
    let source = "#define _GNU_SOURCE\n#include <stdio.h>\n#include <sys/stat.h>\n#include <sys/syscall.h>\n#include <unistd.h>\n\
        ssize_t read(int from, void *into, size_t most)\n{\n    struct stat about;\n    ssize_t n = syscall(SYS_read, from, into, most);\n\
        \x20   if (n > 0 && fstat(from, &about) == 0 && S_ISREG(about.st_mode))\n        dprintf(2, \"%zd\\n\", n);\n    return n;\n}\n";
    std::fs::write(room.join("reads.c"), source).unwrap();
    let library = room.join("reads.so");
    let made = Command::new("cc").args(["-shared", "-fPIC", "-o"]).arg(&library).arg(room.join("reads.c")).status().unwrap();
    assert!(made.success());
    library
}

/// Of each file 122 bytes are read and no more, however long it is, and all of a shorter one; `check` reads what there is.
#[test]
fn look_reads_no_more_than_the_first_bytes() {
    let room = room("look-reads");
    let library = reads_told(&room);
    std::fs::write(room.join("a.crn"), sample("dxt1.crn")).unwrap();
    std::fs::write(room.join("b.crn"), [sample("cube.crn"), vec![7; 1 << 20]].concat()).unwrap();
    std::fs::write(room.join("c.crn"), &sample("cube.crn")[..100]).unwrap();
    std::fs::write(room.join("d.crn"), [0; 5000]).unwrap();
    // 4 GB that nobody would want to read
    std::fs::write(room.join("e.crn"), sample("dxt5.crn")).unwrap();
    std::fs::File::options().write(true).open(room.join("e.crn")).unwrap().set_len(u32::MAX as u64).unwrap();
    let reads = |verb: &str, name: &str| {
        let mut run = Command::new(env!("CARGO_BIN_EXE_crn"));
        let run = run.args([verb, "--jobs", "1", name]).env("LD_PRELOAD", &library).current_dir(&room);
        let (status, out, err) = told(run.output().unwrap());
        (status, out, err.lines().map(|line| line.parse::<u64>().unwrap()).sum::<u64>())
    };
    let (told, accepted) = ("a.crn: DXT1, 64 x 64 pixels, 7 levels, 1 face\n", "1 file: 1 accepted, 0 refused\n");
    assert_eq!((reads("look", "a.crn"), reads("check", "a.crn")), ((0, told.into(), 122), (0, accepted.into(), 801)));
    assert_eq!((reads("look", "b.crn").2, reads("check", "b.crn").2), (122, 443 + (1 << 20)));
    assert_eq!((reads("look", "c.crn").0, reads("look", "c.crn").2), (1, 100));
    assert_eq!((reads("look", "d.crn").0, reads("look", "d.crn").2), (1, 122));
    assert_eq!(reads("look", "e.crn"), (0, "e.crn: DXT5, 48 x 32 pixels, 6 levels, 1 face\n".into(), 122));
    assert_eq!(reads("look", ".").2, 4 * 122 + 100);
}

#[test]
fn the_header_is_looked_at_before_the_rest_is_read() {
    let room = room("header-first");
    std::fs::File::create(room.join("zeros.crn")).unwrap().set_len(3 << 30).unwrap();
    // 3 GB are not there to be read into
    let script = "ulimit -v 1500000; exec \"$0\" check zeros.crn --jobs 1";
    let run = Command::new("sh").args(["-c", script, env!("CARGO_BIN_EXE_crn")]).current_dir(&room).output().unwrap();
    let (status, out, err) = told(run);
    assert!(status == 1 && out.starts_with("zeros.crn: refused, 1: ") && err.is_empty(), "{out}{err}");
}

#[test]
fn check_finds_what_it_is_asked_for() {
    let room = room("check-finds");
    std::fs::create_dir_all(room.join("a/b/c")).unwrap();
    for name in ["a/1.crn", "a/2.CRN", "a/3.txt", "a/b/4.crn", "a/b/c/5.crn", "a/z.crn", "a/new\nline.crn"] {
        std::fs::write(room.join(name), sample("dxn.crn")).unwrap();
    }
    // links to folders are not followed, also by a name that ends in .crn; links to files are
    for (name, to) in [("a/b/up", ".."), ("a/b/up.crn", ".."), ("a/b/6.crn", "../3.txt")] {
        std::os::unix::fs::symlink(to, room.join(name)).unwrap();
    }
    let found = |words: &[&str], input: &[u8]| {
        let [check, look] = ["check", "look"].map(|verb| {
            let (status, out, err) = crn_given(&room, &[&[verb, "--json"], words].concat(), input);
            assert_eq!(status, 0, "{out}{err}");
            let name = |line: &str| line.split('"').nth(3).unwrap().to_string();
            out.lines().map(name).collect::<Vec<_>>().join(" ")
        });
        assert_eq!(check, look);
        check
    };
    let all = "a/1.crn a/2.CRN a/b/4.crn a/b/6.crn a/b/c/5.crn a/new\\u000aline.crn a/z.crn";
    assert_eq!(found(&["a"], b""), all);
    assert_eq!(found(&["a", "--jobs", "1"], b""), all);
    assert_eq!(found(&["--all", "a"], b""), "a/1.crn a/2.CRN a/3.txt a/b/4.crn a/b/6.crn a/b/c/5.crn a/new\\u000aline.crn a/z.crn");
    // names by lists: a name a line, or ended by a zero byte; folders among them; the last without its end
    let by_list = found(&["--files-from", "-", "a/z.crn"], b"a/3.txt\n\na/b\na/1.crn");
    assert_eq!(by_list, "a/z.crn a/3.txt a/b/4.crn a/b/6.crn a/b/c/5.crn a/1.crn");
    assert_eq!(found(&["--null", "--files-from=-"], b"a/new\nline.crn\0a/3.txt\0"), "a/new\\u000aline.crn a/3.txt");
    std::fs::write(room.join("list"), "a/3.txt\na/z.crn\n").unwrap();
    assert_eq!(found(&["--files-from", "list"], b""), "a/3.txt a/z.crn");
    // what is no list has no end to its first name
    let (status, out, _) = crn_given(&room, &["check", "--files-from", "-"], &vec![b'x'; 1 << 20]);
    assert!(status == 3 && out.starts_with("standard input: it has a name of more than 65,535 bytes"), "{out}");
    // and standard input as a list has no file on it: - is a name there
    let (status, out, _) = crn_given(&room, &["check", "--files-from", "-"], b"-\n");
    assert!(status == 3 && out.starts_with("-: there is no such file\n"), "{out}");
}

/// Many files by many threads come in the order of one.
#[test]
fn answers_come_in_order() {
    let room = room("in-order");
    for n in 0..600 {
        // files that take long and files that don't
        let file = if n % 7 == 0 { sample("dxt1.crn") } else { vec![b'H'; n] };
        std::fs::write(room.join(format!("{n:03}.crn")), file).unwrap();
    }
    for verb in ["check", "look"] {
        let run = |jobs: &str| crn_in(&room, &[verb, "--json", "--jobs", jobs, "."]);
        let one = run("1");
        let order = one.1.lines().map(|line| line.split('"').nth(3).unwrap().to_string()).collect::<Vec<_>>();
        assert_eq!(order, (0..600).map(|n| format!("./{n:03}.crn")).collect::<Vec<_>>());
        for jobs in ["2", "7", "64"] {
            assert!(run(jobs) == one, "{verb} {jobs}");
        }
    }
}

/// Names are read while files are checked: answers come before the list has its end.
#[test]
fn a_list_is_checked_while_it_is_written() {
    ["check", "look"].iter().for_each(|verb| answered_while_written(verb));
}

fn answered_while_written(verb: &str) {
    let mut run = piped(Command::new(env!("CARGO_BIN_EXE_crn")).args([verb, "--json", "--files-from", "-"]).current_dir(root("")));
    let mut list = run.stdin.take().unwrap();
    let (send, receive) = mpsc::channel();
    let out = BufReader::new(run.stdout.take().unwrap());
    std::thread::spawn(move || out.lines().for_each(|line| drop(send.send(line.unwrap()))));
    for _ in 0..2000 {
        list.write_all(b"samples/dxn.crn\n").unwrap();
    }
    list.flush().unwrap();
    for _ in 0..1000 {
        receive.recv_timeout(Duration::from_secs(60)).expect("an answer before the list's end");
    }
    drop(list);
    assert_eq!((receive.iter().count(), run.wait().unwrap().code()), (1000, Some(0)));
}

/// While the first answer is missing, no more than so many names are read: else a slow file would fill the memory.
#[test]
fn nobody_gets_far_ahead_of_a_slow_file() {
    ["check", "look"].iter().for_each(|verb| waits_for_a_slow_file(verb));
}

fn waits_for_a_slow_file(verb: &str) {
    let room = room("ahead");
    assert!(Command::new("mkfifo").arg(room.join("list")).status().unwrap().success());
    let words = [verb, "--json", "--jobs", "2", "-", "--files-from", "list"];
    let mut run = piped(Command::new(env!("CARGO_BIN_EXE_crn")).args(words).current_dir(&room));
    const NAMES: usize = 50_000;
    static WRITTEN: AtomicUsize = AtomicUsize::new(0);
    WRITTEN.store(0, Ordering::SeqCst);
    let path = room.join("list");
    let writer = std::thread::spawn(move || {
        let mut list = std::fs::File::options().write(true).open(path).unwrap();
        for _ in 0..NAMES {
            list.write_all(b"there-is-no-such-file.crn\n").unwrap();
            WRITTEN.fetch_add(1, Ordering::SeqCst);
        }
    });
    // it stands still once the pipe, the buffer and the window are full
    let (mut before, began) = (0, Instant::now());
    loop {
        std::thread::sleep(Duration::from_millis(300));
        let written = WRITTEN.load(Ordering::SeqCst);
        if written > 0 && written == before || began.elapsed() > Duration::from_secs(30) {
            break;
        }
        before = written;
    }
    assert!(before < NAMES / 5, "{before} names were read ahead");
    let mut input = run.stdin.take().unwrap();
    input.write_all(&sample("dxn.crn")).unwrap();
    drop(input);
    let (status, out, _) = told(run.wait_with_output().unwrap());
    writer.join().unwrap();
    assert_eq!((status, out.lines().count()), (3, 1 + NAMES));
    assert!(out.starts_with("{\"file\":\"-\",\"accepted\":true,"));
}

#[test]
fn unpack_takes_many_files_and_overwrites_none_unasked() {
    let room = room("unpack-many");
    for (name, of) in [("a/one.crn", "cube.crn"), ("a/two.crn", "dxn.crn"), ("b/one.crn", "dxt1.crn")] {
        std::fs::create_dir_all(room.join(name).parent().unwrap()).unwrap();
        std::fs::write(room.join(name), sample(of)).unwrap();
    }
    // a file of cube's level 1 is there
    std::fs::create_dir(room.join("out")).unwrap();
    std::fs::write(room.join("out/one-level1-face4.dxt1"), "of yesterday").unwrap();
    let (status, out, err) = crn_in(&room, &["unpack", "a", "b", "--out", "out"]);
    let there = "crn: out/one-level1-face4.dxt1: it is there already, and is replaced only with --force\n";
    let clash = "crn: b/one.crn: its files would have the names of those of a/one.crn\n";
    assert_eq!((status, err), (3, format!("{there}{clash}")));
    // all levels but that one: of it no other face either
    assert_eq!(out.lines().count(), 4 * 6 + 6);
    let level1 = |name: &String| name.starts_with("one-level1-");
    assert_eq!(names(&room.join("out")).into_iter().filter(level1).collect::<Vec<_>>(), ["one-level1-face4.dxt1"]);
    assert_eq!(std::fs::read(room.join("out/one-level1-face4.dxt1")).unwrap(), b"of yesterday");
    // a link that leads nowhere is there too
    std::os::unix::fs::symlink("nowhere", room.join("out/one-level6.dxt1")).unwrap();
    let (status, _, err) = crn_in(&room, &["unpack", "b/one.crn", "--level", "6", "--out", "out"]);
    assert!(status == 3 && err.starts_with("crn: out/one-level6.dxt1: it is there already"), "{err}");
    let (status, out, err) = crn_in(&room, &["unpack", "a/one.crn", "--level", "1", "--out", "out", "--force"]);
    assert_eq!((status, err.as_str(), out.lines().count(), out.matches(" (replaced)\n").count()), (0, "", 6, 1));
    assert_eq!(std::fs::read(room.join("out/one-level1-face4.dxt1")).unwrap().len(), 32);
}

#[test]
fn dds_overwrites_nothing_unasked() {
    let room = room("dds-force");
    std::fs::write(room.join("one.crn"), sample("dxt1.crn")).unwrap();
    std::fs::write(room.join("one.dds"), "of yesterday").unwrap();
    let there = "crn: one.dds: it is there already, and is replaced only with --force\n";
    for words in [&["dds", "one.crn"][..], &["dds", "one.crn", "-o", "one.dds"]] {
        assert_eq!(crn_in(&room, words), (3, String::new(), there.into()));
    }
    assert_eq!(std::fs::read(room.join("one.dds")).unwrap(), b"of yesterday");
    let replaced = "one.dds: 2,872 bytes, 7 levels, 1 face (replaced)\n";
    assert_eq!(crn_in(&room, &["dds", "one.crn", "--force"]), (0, replaced.into(), String::new()));
    assert_eq!(names(&room), ["one.crn", "one.dds"]);
}

/// Of commands that run at once to write one file, one does, and none of the others says that it did.
#[test]
fn of_two_at_once_one_writes() {
    let room = room("at-once");
    for round in 0..20 {
        std::fs::write(room.join("a.crn"), sample("dxt1.crn")).unwrap();
        let start = || piped(Command::new(env!("CARGO_BIN_EXE_crn")).args(["dds", "a.crn"]).current_dir(&room));
        let runs: Vec<Child> = (0..4).map(|_| start()).collect();
        let mut codes: Vec<_> = runs.into_iter().map(|run| told(run.wait_with_output().unwrap()).0).collect();
        codes.sort();
        assert_eq!(codes, [0, 3, 3, 3], "round {round}");
        assert_eq!(names(&room), ["a.crn", "a.dds"]);
        std::fs::remove_file(room.join("a.dds")).unwrap();
    }
}

/// Some disks have no links (a memory card's): names are given in another way there, and as safely.
#[test]
fn files_are_written_where_there_are_no_links() {
    let room = room("no-links");
    let source = "#include <errno.h>\nint linkat(int a, const char *b, int c, const char *d, int e) { errno = EPERM; return -1; }\n";
    std::fs::write(room.join("no.c"), format!("{source}int link(const char *a, const char *b) {{ errno = EPERM; return -1; }}\n")).unwrap();
    let library = room.join("no.so");
    let made = Command::new("cc").args(["-shared", "-fPIC", "-o"]).arg(&library).arg(room.join("no.c")).status().unwrap();
    assert!(made.success());
    let crn = |words: &[&str]| {
        let mut run = Command::new(env!("CARGO_BIN_EXE_crn"));
        told(run.args(words).arg(root("samples/cube.crn")).env("LD_PRELOAD", &library).current_dir(&room).output().unwrap())
    };
    assert_eq!(crn(&["dds"]), (0, "cube.dds: 1,232 bytes, 5 levels, 6 faces\n".into(), String::new()));
    std::fs::write(room.join("cube.dds"), "of yesterday").unwrap();
    assert_eq!(crn(&["dds"]).0, 3);
    assert_eq!(std::fs::read(room.join("cube.dds")).unwrap(), b"of yesterday");
    let (status, out, _) = crn(&["unpack", "--level", "0", "--out", "blocks"]);
    assert_eq!((status, out.lines().count(), names(&room.join("blocks")).len()), (0, 6, 6));
    assert_eq!(std::fs::metadata(room.join("blocks/cube-level0-face5.dxt1")).unwrap().len(), 128);
    assert_eq!(names(&room), ["blocks", "cube.dds", "no.c", "no.so"]);
}

/// Standard error that is full, or closed, changes nothing else.
#[test]
fn nobody_has_to_read_what_went_wrong() {
    let room = room("no-stderr");
    std::fs::write(room.join("no.crn"), "x").unwrap();
    for (words, status) in [
        ("info no.crn", 1),
        ("check no.crn none.crn", 3),
        ("check --json no.crn", 1),
        ("unpack no.crn", 1),
        ("dds no.crn none.crn", 3),
        ("dds no.crn -o -", 1),
        ("png no.crn none.crn", 3),
        ("png no.crn -o -", 1),
        ("look no.crn none.crn", 3),
        ("look", 2),
        ("check --what", 2),
        ("check . >/dev/full", 3),
    ] {
        for to in ["/dev/full", "&-"] {
            let script = format!("\"$0\" {words} 2>{to}");
            let run = Command::new("sh").args(["-c", &script, env!("CARGO_BIN_EXE_crn")]).current_dir(&room).output().unwrap();
            assert_eq!(run.status.code(), Some(status), "{script}");
        }
    }
}

/// The signals that end a command, by name and number.
const SIGNALS: [(&str, i32); 3] = [("HUP", 1), ("INT", 2), ("TERM", 15)];

fn send(signal: &str, to: &Child) {
    assert!(Command::new("kill").args([&format!("-{signal}"), &to.id().to_string()]).status().unwrap().success());
}

/// `crn unpack` of many copies of a cube map, as a shell starts it, caught with a part of a file there: it is stopped, and goes on by
/// SIGCONT.
fn caught(room: &Path, before: &str) -> Child {
    for n in 0..400 {
        std::fs::write(room.join(format!("{n}.crn")), sample("cube.crn")).unwrap();
    }
    let script = format!("{before} exec \"$0\" unpack . --force --out out");
    let part = |_: ()| {
        let list = std::fs::read_dir(room.join("out")).into_iter().flatten();
        list.flatten().any(|entry| entry.file_name().as_bytes().ends_with(b".part"))
    };
    for _ in 0..100 {
        let mut run = Command::new("sh");
        run.args(["-c", &script, env!("CARGO_BIN_EXE_crn")]).current_dir(room);
        let mut run = run.stdout(Stdio::null()).spawn().unwrap();
        let state = |run: &Child| std::fs::read_to_string(format!("/proc/{}/stat", run.id())).unwrap_or_default();
        while !part(()) && run.try_wait().unwrap().is_none() {}
        if run.try_wait().unwrap().is_some() {
            continue;
        }
        send("STOP", &run);
        while !state(&run).contains(") T ") && !state(&run).contains(") Z ") {}
        if part(()) && run.try_wait().unwrap().is_none() {
            return run;
        }
        send("KILL", &run);
        run.wait().unwrap();
        std::fs::remove_dir_all(room.join("out")).unwrap();
    }
    panic!("no part was seen");
}

#[test]
fn a_signal_leaves_no_part_of_a_file() {
    for (name, number) in SIGNALS {
        let room = room(&format!("signal-{name}"));
        let mut run = caught(&room, "");
        send(name, &run);
        send("CONT", &run);
        assert_eq!(run.wait().unwrap().signal(), Some(number), "it ends by the signal");
        let left = names(&room.join("out"));
        assert!(left.iter().all(|name| name.ends_with(".dxt1")), "{left:?}");
        // and of each level all faces or none
        assert!(left.len().is_multiple_of(6) && left.len() < 400 * 30, "{}", left.len());
    }
}

/// As `nohup` has it.
#[test]
fn a_signal_that_is_ignored_stays_so() {
    let room = room("signal-ignored");
    let mut run = caught(&room, "trap '' HUP;");
    send("HUP", &run);
    send("CONT", &run);
    assert_eq!(run.wait().unwrap().code(), Some(0));
    assert_eq!(names(&room.join("out")).len(), 400 * 30);
}

#[test]
fn a_files_name_may_be_any_bytes() {
    let room = room("names");
    let name = room.join(OsStr::from_bytes(b"a\xffb.crn"));
    std::fs::write(&name, sample("dxn.crn")).unwrap();
    let into = room.to_str().unwrap();
    let unpack = ["unpack", "--level", "0", "--out", into];
    for words in [&["info"][..], &["look"], &["check"], &unpack, &["dds", "-d", into], &["png", "-d", into]] {
        let run = Command::new(env!("CARGO_BIN_EXE_crn")).args(words).arg(&name).output().unwrap();
        assert_eq!(told(run).0, 0, "{words:?}");
    }
    assert!([&b"a\xffb-level0.dxn"[..], b"a\xffb.dds", b"a\xffb.png"].iter().all(|name| room.join(OsStr::from_bytes(name)).exists()));
}

/// Names that would forge a line, clear a screen, turn the writing around or hide, and one that is no text.
const ODD: [(&[u8], &str); 5] = [
    (b"a.crn: all is well\nb.crn", r#""a.crn: all is well\nb.crn""#),
    (b"\x1b[2J\x07.crn", r#""\x1b[2J\x07.crn""#),
    ("\u{202e}nrc.\u{200b}x\u{9b}.crn".as_bytes(), r#""\u{202e}nrc.\u{200b}x\u{9b}.crn""#),
    (b"\"q\\\".crn", r#""\"q\\\".crn""#),
    (b"a\xff\xfeb.crn", r#""a\xff\xfeb.crn""#),
];

#[test]
fn no_name_forges_a_line_or_steers_a_terminal() {
    let plain = |text: &str| assert!(text.chars().all(|c| c == '\n' || c == ' ' || c.is_ascii_graphic()), "{text:?}");
    for (name, shown) in ODD {
        let room = room("odd-names");
        let file = room.join(OsStr::from_bytes(name));
        std::fs::write(&file, "x").unwrap();
        let run = |words: &[&str]| {
            let (status, out, err) =
                told(Command::new(env!("CARGO_BIN_EXE_crn")).args(words).arg(OsStr::from_bytes(name)).current_dir(&room).output().unwrap());
            plain(&out);
            plain(&err);
            (status, out, err)
        };
        // refused, not there, accepted, written, there already
        for verb in ["info", "unpack", "dds", "png"] {
            assert_eq!(run(&[verb, "--"]), (1, String::new(), format!("crn: {shown}: refused, 1: {NO_CRN}\n")), "{verb}");
        }
        assert!(run(&["check", "--"]).1.starts_with(&format!("{shown}: refused, 1: {NO_CRN}\n1 file: ")));
        assert_eq!(run(&["look", "--"]), (1, format!("{shown}: refused, 1: {NO_CRN}\n"), String::new()));
        std::fs::remove_file(&file).unwrap();
        assert_eq!(run(&["info", "--"]).2, format!("crn: {shown}: there is no such file\n"));
        std::fs::write(&file, sample("dxn.crn")).unwrap();
        assert!(run(&["info", "--"]).1.starts_with(&format!("{shown}: 606 bytes, ")));
        assert_eq!(run(&["look", "--"]).1, format!("{shown}: DXN XY, 32 x 32 pixels, 6 levels, 1 face\n"));
        let out = shown.replace(".crn\"", ".dds\"");
        assert_eq!(run(&["dds", "--"]), (0, format!("{out}: 1,520 bytes, 6 levels, 1 face\n"), String::new()));
        assert!(run(&["dds", "--"]).2.starts_with(&format!("crn: {out}: it is there already")));
        let out = run(&["unpack", "--level", "5", "--"]).1;
        assert!(out.lines().count() == 1 && out.contains("./") && out.contains("-level5.dxn"), "{out}");
        // where a command line is no good
        let level = format!("crn: --level is {shown}, and may be 0 to 4294967295; `crn help` has them all\n");
        assert_eq!(run(&["unpack", "x", "--level"]).2, level);
        assert_eq!(run(&[]).2, format!("crn: there is no command {shown}; `crn help` has them all\n"));
        let option = OsStr::from_bytes(&[b"--", name].concat()).to_os_string();
        let (_, _, err) = told(Command::new(env!("CARGO_BIN_EXE_crn")).arg("check").arg(option).output().unwrap());
        plain(&err);
        let list = room.join(OsStr::from_bytes(name)).join("list");
        let list = told(Command::new(env!("CARGO_BIN_EXE_crn")).args(["check", "--files-from"]).arg(list).output().unwrap());
        plain(&list.2);
    }
}

/// What JSON is, another program says; and it gets each byte of a name.
#[test]
fn json_has_names_without_loss() {
    let room = room("json-names");
    for (name, _) in ODD {
        std::fs::write(room.join(OsStr::from_bytes(name)), sample("cube.crn")).unwrap();
    }
    std::fs::write(room.join("plain.crn"), "x").unwrap();
    let program = "import json, os, sys\n\
        for line in sys.stdin:\n \
        told = json.loads(line)\n \
        name = bytes.fromhex(told['file_hex']) if 'file_hex' in told else told['file'].encode()\n \
        assert name.startswith(b'./') and os.path.exists(name) and line.isascii() == ('file_hex' not in told), line\n \
        print(told['accepted'])\n";
    for verb in ["check", "look", "info"] {
        let (_, out, _) = crn_in(&room, &[verb, "--json", "."]);
        let mut run = piped(Command::new("python3").args(["-c", program]).current_dir(&room));
        run.stdin.take().unwrap().write_all(out.as_bytes()).unwrap();
        let (status, mut told, err) = told(run.wait_with_output().unwrap());
        told = told.split_whitespace().collect::<Vec<_>>().join(" ");
        assert_eq!((status, told.as_str(), err.as_str()), (0, "True True True True False True", ""));
    }
}
