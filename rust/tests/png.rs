//! `crn png`, run as a person would; its pictures are read by another reader, png.py.
mod common;
use common::{cut_level, names, of_format, room, root, sample, samples, told};
use crunch_proved::{Crn, Level};
use std::io::Write;
use std::path::Path;
use std::process::{Command, Output, Stdio};

/// A picture that was read.
#[derive(Clone, PartialEq)]
struct Picture {
    width: usize,
    height: usize,
    /// As PNG numbers them: 2 for colours, 4 for alpha, 6 for both.
    kind: u32,
    rgba: Vec<u8>,
}

/// What png.py reads of PNG files, one behind another.
fn read(files: &[u8]) -> Vec<Picture> {
    let mut run = Command::new("python3");
    let mut run = run.arg(root("rust/tests/png.py")).stdin(Stdio::piped()).stdout(Stdio::piped()).spawn().unwrap();
    run.stdin.take().unwrap().write_all(files).unwrap();
    let run = run.wait_with_output().unwrap();
    assert!(run.status.success());
    let (mut pictures, mut rest) = (Vec::new(), &run.stdout[..]);
    while !rest.is_empty() {
        let number = |at: usize| u32::from_be_bytes(rest[at..at + 4].try_into().unwrap());
        let (width, height, kind) = (number(0) as usize, number(4) as usize, number(8));
        let (rgba, later) = rest[12..].split_at(4 * width * height);
        pictures.push(Picture { width, height, kind, rgba: rgba.into() });
        rest = later;
    }
    pictures
}

fn run(folder: &Path, words: &[&str]) -> Output {
    Command::new(env!("CARGO_BIN_EXE_crn")).arg("png").args(words).current_dir(folder).output().unwrap()
}

/// The PNG file that goes to standard output, with nothing said besides.
fn piped(words: &[&str]) -> Vec<u8> {
    let run = run(&root("samples"), &[words, &["-o", "-"]].concat());
    assert_eq!((run.status.code(), String::from_utf8(run.stderr).unwrap().as_str()), (Some(0), ""));
    run.stdout
}

/// `crn png` in a folder, with nothing but text to say.
fn said(folder: &Path, words: &[&str]) -> (i32, String, String) {
    told(run(folder, words))
}

fn unpacked(name: &str, level: u32) -> Level {
    Crn::open(&sample(name)).unwrap().unpack_level(level).unwrap()
}

/// Each face of each level of each sample, by the command and from Rust.
#[test]
fn a_picture_has_the_pixels_that_rust_gets() {
    let (mut files, mut wanted) = (Vec::new(), Vec::new());
    for name in samples() {
        let (file, number) = (sample(&name), |n: usize| n.to_string());
        let crn = Crn::open(&file).unwrap();
        for level in 0..crn.levels() {
            let of = crn.unpack_level(level).unwrap();
            for face in 0..crn.faces() as usize {
                files.extend(piped(&["--face", &number(face), "--level", &number(level as usize), &name]));
                wanted.push((name.clone(), level, of.width(), of.height(), of.rgba(face).unwrap()));
            }
            // of a file of one face it needs no word, and all faces are that one
            if crn.faces() == 1 {
                for words in [&[][..], &["--all-faces"], &["--strip"], &["--all-faces", "--strip"]] {
                    files.extend(piped(&[words, &["--level", &number(level as usize), &name]].concat()));
                    wanted.push((name.clone(), level, of.width(), of.height(), of.rgba(0).unwrap()));
                }
            }
        }
        // and so does level 0
        if crn.faces() == 1 {
            files.extend(piped(&[&name]));
            wanted.push((name.clone(), 0, crn.width(), crn.height(), crn.unpack_level(0).unwrap().rgba(0).unwrap()));
        }
    }
    let pictures = read(&files);
    assert_eq!(pictures.len(), wanted.len());
    for (picture, (name, level, width, height, rgba)) in pictures.iter().zip(&wanted) {
        assert_eq!((picture.width, picture.height), (*width as usize, *height as usize), "{name} {level}");
        assert!(picture.rgba == *rgba, "{name} {level}");
        // no channel is written that says nothing
        let grey = rgba.chunks(4).all(|p| p[0] == p[1] && p[1] == p[2]);
        let opaque = rgba.chunks(4).all(|p| p[3] == 255);
        assert_eq!(picture.kind, [[6, 2], [4, 0]][grey as usize][opaque as usize], "{name} {level}");
    }
    // both kinds were among them
    assert!([2, 6].iter().all(|kind| pictures.iter().any(|picture| picture.kind == *kind)));
}

#[test]
fn the_readmes_picture_is_what_the_command_writes() {
    assert!(std::fs::read_to_string(root("README.md")).unwrap().contains("<img src=\"docs/pictures/meadow.png\""));
    assert!(piped(&["meadow.crn"]) == std::fs::read(root("docs/pictures/meadow.png")).unwrap());
}

/// The pixels of a face that stands in a picture, by its column and row.
fn at(picture: &Picture, of: &Level, column: usize, row: usize) -> Vec<u8> {
    let (width, height) = (of.width() as usize, of.height() as usize);
    let line = |y: usize| &picture.rgba[4 * ((row * height + y) * picture.width + column * width)..][..4 * width];
    (0..height).flat_map(line).copied().collect()
}

#[test]
fn a_cube_map_is_a_cross_or_a_strip() {
    for level in 0..5 {
        let (of, number) = (unpacked("cube.crn", level), level.to_string());
        let (width, height) = (of.width() as usize, of.height() as usize);
        let words = [&["--level", &number, "cube.crn"][..], &["--strip", "--level", &number, "cube.crn"]];
        let [cross, strip] = &read(&words.map(piped).concat())[..] else { panic!("two pictures") };
        // the same, said in other words
        assert!(read(&piped(&["--all-faces", "--level", &number, "cube.crn"])) == [cross.clone()]);
        assert!(read(&piped(&["--all-faces", "--strip", "--level", &number, "cube.crn"])) == [strip.clone()]);
        assert_eq!((strip.width, strip.height), (6 * width, height));
        assert!((0..6).all(|face| at(strip, &of, face, 0) == of.rgba(face).unwrap()));
        assert_eq!((cross.width, cross.height, cross.kind), (4 * width, 3 * height, 6));
        //   +Y             2
        // -X +Z +X -Z    1 4 0 5
        //   -Y             3
        let faces = [[None, Some(2), None, None], [Some(1), Some(4), Some(0), Some(5)], [None, Some(3), None, None]];
        let nothing = vec![0; 4 * width * height];
        for (row, faces) in faces.iter().enumerate() {
            for (column, face) in faces.iter().enumerate() {
                let wanted = face.map_or(nothing.clone(), |face| of.rgba(face).unwrap());
                assert!(at(cross, &of, column, row) == wanted, "level {level}, column {column}, row {row}");
            }
        }
    }
}

#[test]
fn pictures_go_where_they_are_asked_to() {
    let room = room("png");
    std::fs::write(room.join("one.crn"), sample("dxt1.crn")).unwrap();
    std::fs::write(room.join("two.crn"), sample("cube.crn")).unwrap();
    let size = |name: &str| std::fs::metadata(room.join(name)).unwrap().len();
    let line = |name: &str, about: &str| {
        let bytes = size(name).to_string();
        let (thousands, rest) = bytes.split_at(bytes.len().saturating_sub(3));
        format!("{name}: {thousands}{}{rest} bytes, {about}\n", if thousands.is_empty() { "" } else { "," })
    };
    // into the current folder, where it is asked for, and into a folder that is made
    let done = |said: (i32, String, String), lines: &[String]| assert_eq!(said, (0, lines.concat(), String::new()));
    done(said(&room, &["one.crn"]), &[line("one.png", "64 x 64 pixels, 1 face")]);
    done(said(&room, &["-o", "face.x", "--face=5", "two.crn"]), &[line("face.x", "16 x 16 pixels, 1 face")]);
    assert_eq!(names(&room), ["face.x", "one.crn", "one.png", "two.crn"]);
    let both = said(&room, &["-d", "new/folder", ".", "--level", "1"]);
    done(both, &[line("new/folder/one.png", "32 x 32 pixels, 1 face"), line("new/folder/two.png", "32 x 24 pixels, 6 faces")]);
    assert_eq!(names(&room.join("new/folder")), ["one.png", "two.png"]);
    // to standard output comes the same file, and by several threads as by one
    let file = |name: &str| std::fs::read(room.join(name)).unwrap();
    assert!(run(&room, &["one.crn", "-o", "-"]).stdout == file("one.png"));
    assert_eq!(said(&room, &["one.crn", "two.crn", "-d", "by-1", "--jobs", "1"]).0, 0);
    assert_eq!(said(&room, &["one.crn", "two.crn", "-d", "by-8", "--jobs", "8"]).0, 0);
    assert!(file("by-1/one.png") == file("one.png") && file("by-8/one.png") == file("one.png"));
    assert!(file("by-1/two.png") == file("by-8/two.png"));
    // what is there stays, unless it is to be replaced
    std::fs::write(room.join("one.png"), "of yesterday").unwrap();
    let there = "crn: one.png: it is there already, and is replaced only with --force\n";
    assert_eq!(said(&room, &["one.crn"]), (3, String::new(), there.into()));
    assert_eq!(file("one.png"), b"of yesterday");
    done(said(&room, &["one.crn", "--force"]), &[line("one.png", "64 x 64 pixels, 1 face (replaced)")]);
    assert!(file("one.png") == file("by-1/one.png"));
    // two files with one name: the first has it
    std::fs::create_dir(room.join("other")).unwrap();
    std::fs::write(room.join("other/one.crn"), sample("dxn.crn")).unwrap();
    let (status, out, err) = said(&room, &["one.crn", "other", "-d", "third"]);
    let clash = "crn: other/one.crn: its PNG file would be third/one.png, as that of one.crn\ncrn: 1 of 2 files written\n";
    assert_eq!((status, out, err.as_str()), (3, line("third/one.png", "64 x 64 pixels, 1 face"), clash));
}

#[test]
fn a_face_or_level_that_is_not_there_is_told() {
    let room = room("png-missing");
    let into = room.join("new");
    let told = |words: &[&str]| {
        let (status, out, err) = said(&root("samples"), &[words, &["-d", into.to_str().unwrap()]].concat());
        assert_eq!((status, out.as_str(), into.exists()), (1, "", false), "{words:?}");
        err
    };
    let none = "the file has no face of this number";
    assert_eq!(told(&["--face", "6", "cube.crn"]), format!("crn: cube.crn: face 6: {none}; its faces are 0 to 5\n"));
    assert_eq!(told(&["--face", "1", "dxn.crn"]), format!("crn: dxn.crn: face 1: {none}; its only face is 0\n"));
    assert_eq!(told(&["--face", "4294967295", "dxn.crn"]), format!("crn: dxn.crn: face 4294967295: {none}; its only face is 0\n"));
    let level = "level 5: refused, 10: the file has no level of this number; its levels are 0 to 4";
    assert_eq!(told(&["--level", "5", "cube.crn"]), format!("crn: cube.crn: {level}\n"));
    // the others are written
    let (status, out, err) = said(&root("samples"), &["--face=5", "dxn.crn", "cube.crn", "-d", into.to_str().unwrap()]);
    let told = format!("crn: dxn.crn: face 5: {none}; its only face is 0\ncrn: 1 of 2 files written\n");
    assert_eq!((status, out.lines().count(), err, names(&into)), (1, 1, told, vec!["cube.png".to_string()]));
}

#[test]
fn a_refused_file_leaves_no_picture() {
    let room = room("png-refused");
    std::fs::write(room.join("cut.crn"), cut_level()).unwrap();
    let refused = "crn: cut.crn: level 1: refused, 8: the compressed data end too soon";
    for words in [&["-o", "-"][..], &["-o", "a.png"], &["-d", "new"], &[]] {
        let (status, out, err) = said(&room, &[&["--level", "1", "cut.crn"], words].concat());
        assert!((status, out.as_str()) == (1, "") && err.starts_with(refused) && err.lines().count() == 1, "{err}");
        assert_eq!(names(&room), ["cut.crn"]);
    }
    // of the other levels there is a picture
    assert_eq!(run(&room, &["cut.crn"]).status.code(), Some(0));
    assert_eq!(names(&room), ["cut.crn", "cut.png"]);
}

/// Formats with exchanged channels come as they are stored, and it is said, once a file; others come with no word.
#[test]
fn of_exchanged_channels_it_is_told() {
    let room = room("png-swizzled");
    for (name, plain, format, called) in [
        ("dxt5.crn", 2, 3, "DXT5 CCxY"),
        ("dxt5.crn", 2, 4, "DXT5 xGxR"),
        ("dxt5.crn", 2, 5, "DXT5 xGBR"),
        ("dxt5.crn", 2, 6, "DXT5 AGBR"),
        ("dxn.crn", 7, 8, "DXN YX"),
    ] {
        std::fs::write(room.join("a.crn"), of_format(name, format)).unwrap();
        std::fs::write(room.join("b.crn"), of_format(name, plain)).unwrap();
        let note = format!("crn: a.crn: its format is {called}, and the picture has the channels as they are stored\n");
        let (status, out, err) = said(&room, &["--force", "a.crn", "b.crn"]);
        assert_eq!((status, out.lines().count(), err.as_str()), (0, 2, note.as_str()));
        let made = ["a.png", "b.png"].map(|name| std::fs::read(room.join(name)).unwrap());
        assert!(made[0] == made[1]);
        let piped = run(&room, &["a.crn", "-o", "-"]);
        assert_eq!((piped.status.code(), String::from_utf8(piped.stderr).unwrap()), (Some(0), note));
        assert!(piped.stdout == made[0]);
    }
}

/// dxt1.crn as a cube map of 1,024 pixels a side, of one level whose symbols are all code 0.
fn large() -> Vec<u8> {
    let mut file = sample("dxt1.crn");
    let begin = file.len() as u32;
    file.resize(file.len() + 8 * 6 * 128 * 128 + 64, 0);
    let fields = [(6, 4, file.len() as u32), (12, 2, 1024), (14, 2, 1024), (16, 1, 1), (17, 1, 6), (70, 4, begin)];
    fields.iter().for_each(|(at, bytes, number)| file[*at..at + bytes].copy_from_slice(&number.to_be_bytes()[4 - bytes..]));
    file
}

/// A cross of 4,096 by 3,072 pixels is 48 MB, and its faces' pixels are 24 MB: neither has to be there at once.
#[test]
fn a_large_picture_takes_little_memory() {
    let room = room("png-large");
    std::fs::write(room.join("large.crn"), large()).unwrap();
    let script = "ulimit -v 40000; exec \"$0\" png large.crn --jobs 1";
    let run = Command::new("sh").args(["-c", script, env!("CARGO_BIN_EXE_crn")]).current_dir(&room).output().unwrap();
    let (status, out, err) = told(run);
    assert!(status == 0 && err.is_empty() && out.ends_with(" bytes, 4096 x 3072 pixels, 6 faces\n"), "{out}{err}");
}
