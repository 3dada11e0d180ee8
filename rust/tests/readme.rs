//! README's examples, as they stand.
mod common;
use common::{c, room, root, sample, shown, told};
use crunch_proved::{texels, Crn, Format};
use std::process::Command;

/// README's blocks in a language.
fn examples<const N: usize>(language: &str) -> [String; N] {
    let readme = std::fs::read_to_string(root("README.md")).unwrap();
    let fence = format!("```{language}\n");
    let blocks: Vec<String> = readme.split(&fence).skip(1).map(|rest| rest.split("```").next().unwrap().to_string()).collect();
    blocks.try_into().unwrap_or_else(|blocks: Vec<_>| panic!("README has {} examples in {language}", blocks.len()))
}

/// What a Rust example says, as the only file of a package.
fn says(name: &str, example: &str) -> String {
    let room = room(name);
    std::fs::create_dir(room.join("src")).unwrap();
    std::fs::write(room.join("src/main.rs"), example).unwrap();
    let package = "[package]\nname = \"example\"\nversion = \"0.1.0\"\nedition = \"2021\"\n[workspace]\n[dependencies]\ncrunch-proved";
    std::fs::write(room.join("Cargo.toml"), format!("{package} = {{ path = {:?} }}\n", root("rust"))).unwrap();
    let run = Command::new(env!("CARGO"))
        .args(["run", "--quiet", "--offline", "--manifest-path"])
        .arg(room.join("Cargo.toml"))
        .current_dir(root(""))
        .env("CARGO_TARGET_DIR", room.join("target"))
        .output()
        .unwrap();
    let (status, out, err) = told(run);
    assert_eq!((status, err.as_str()), (0, ""));
    out
}

#[test]
fn the_rust_examples_run_as_they_stand() {
    let [opens, crawls, draws] = examples("rust");
    let out = says("readme-rust", &opens);
    let lines: Vec<&str> = out.lines().collect();
    assert_eq!(lines[..2], ["DXT1, 64 x 64 pixels, 7 levels", "level 0: 2048 bytes, 442 symbols, 150 cut-outs"]);
    assert!(lines.len() == 9 && lines[8].starts_with("1 this is no CRN file"), "{out}");
    // a crawler: a line for each sample, as `crn look` has it, for the one that is loaded, and for the header that is another's
    let asked = shown("./crn look samples") + "samples/cube.crn: 20 colour endpoints\n";
    let sentence = "the header that was handed over is not this file's: it is of another file, or one of the two was changed";
    let asked = format!("{asked}refused, 17: {sentence} (header_size is 94, and has to be 90)\n");
    assert_eq!(says("readme-crawler", &crawls), asked);
    // pixels
    let file = sample("cube.crn");
    let rgba = Crn::open(&file).unwrap().unpack_level(0).unwrap().rgba(0).unwrap();
    let clear = rgba.chunks(4).filter(|pixel| pixel[3] == 0).count();
    assert_eq!(says("readme-pixels", &draws), format!("16 x 16 pixels, {clear} of them clear, the first {:?}\n", &rgba[..4]));
    assert!(draws.contains("(pitch is 11, and has to be at least 12)"));
    let no = texels(Format::Dxt5a, 3, 2, 11, &[0; 8], &mut [0; 24]).unwrap_err();
    assert!(no.to_string().ends_with("(pitch is 11, and has to be at least 12)"), "{no}");
}

#[test]
fn the_c_example_runs_as_it_stands() {
    let room = room("readme-c");
    let [example, goes_on] = examples("c");
    std::fs::write(room.join("example.c"), &example).unwrap();
    let line = "DXT5, 48 x 32 pixels, level 0: 1536 bytes, 342 symbols\n";
    assert_eq!(c(&room.join("example.c"), &room), (0, line.into(), String::new()));
    // a file that is not there, and one that is no CRN file
    let run = |path: &str| told(Command::new(room.join("program")).arg(path).current_dir(root("")).output().unwrap());
    assert_eq!(run("no.crn"), (1, String::new(), "no.crn: No such file or directory\n".into()));
    let (status, out, _) = run("README.md");
    assert!(status == 1 && out.starts_with("refused, 1: this is no CRN file"), "{out}");
    // with what it may go on with, before its last line
    let (before, last) = example.rsplit_once("    return 0;\n").unwrap();
    std::fs::write(room.join("pixels.c"), format!("{before}{goes_on}    return 0;\n{last}")).unwrap();
    let file = sample("dxt5.crn");
    let rgba = Crn::open(&file).unwrap().unpack_level(0).unwrap().rgba(0).unwrap();
    let lines = format!("{line}the first pixel: {} {} {} {}\n", rgba[0], rgba[1], rgba[2], rgba[3]);
    assert_eq!(c(&room.join("pixels.c"), &room), (0, lines, String::new()));
}
