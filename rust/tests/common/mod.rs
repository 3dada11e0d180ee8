//! What the tests share.
#![allow(dead_code)]
use crunch_proved::Header;
use std::path::{Path, PathBuf};
use std::process::{Command, Output};

/// A file of the repository.
pub fn root(path: &str) -> PathBuf {
    Path::new(env!("CARGO_MANIFEST_DIR")).parent().unwrap().join(path)
}

pub fn sample(name: &str) -> Vec<u8> {
    std::fs::read(root("samples").join(name)).unwrap()
}

/// The sample files' names.
pub fn samples() -> Vec<String> {
    names(&root("samples")).into_iter().filter(|name| name.ends_with(".crn")).collect()
}

/// dxt1.crn with level 1 ending too soon: level 2 begins where level 1 has but one byte.
pub fn cut_level() -> Vec<u8> {
    let mut file = sample("dxt1.crn");
    let offset = |n: usize| 70 + 4 * n;
    let first = u32::from_be_bytes(file[offset(1)..offset(2)].try_into().unwrap());
    file[offset(2)..offset(3)].copy_from_slice(&(first + 1).to_be_bytes());
    file
}

/// A file with another format in its header.
pub fn of_format(name: &str, format: u8) -> Vec<u8> {
    let mut file = sample(name);
    file[18] = format;
    file
}

/// What a destination holds before a call: bytes none of which is zero, so that one that was cleared is seen.
pub fn pattern(len: usize) -> Vec<u8> {
    (0..len).map(|i| (i % 251) as u8 + 1).collect()
}

/// Every number of a header, in the header's order, with its name.
pub fn fields(h: &mut Header) -> Vec<(String, &mut u32)> {
    let plain = |name: &str, field| (name.to_string(), field);
    let mut all = vec![
        plain("header_size", &mut h.header_size),
        plain("header_crc16", &mut h.header_crc16),
        plain("data_size", &mut h.data_size),
        plain("data_crc16", &mut h.data_crc16),
        plain("width", &mut h.width),
        plain("height", &mut h.height),
        plain("levels", &mut h.levels),
        plain("faces", &mut h.faces),
        plain("format", &mut h.format),
        plain("flags", &mut h.flags),
        plain("reserved", &mut h.reserved),
        plain("userdata0", &mut h.userdata0),
        plain("userdata1", &mut h.userdata1),
    ];
    let parts = [
        ("color_endpoints", &mut h.color_endpoints),
        ("color_selectors", &mut h.color_selectors),
        ("alpha_endpoints", &mut h.alpha_endpoints),
        ("alpha_selectors", &mut h.alpha_selectors),
    ];
    for (name, part) in parts {
        all.push((format!("{name}.offset"), &mut part.offset));
        all.push((format!("{name}.size"), &mut part.size));
        all.push((format!("{name}.count"), &mut part.count));
    }
    all.extend([plain("tables_size", &mut h.tables_size), plain("tables_offset", &mut h.tables_offset)]);
    all.extend(h.level_offsets.iter_mut().enumerate().map(|(n, offset)| (format!("level_offsets[{n}]"), offset)));
    assert_eq!(all.len() * 4, std::mem::size_of::<Header>());
    all
}

/// FNV-1a of 64 bits.
pub fn hash(bytes: impl IntoIterator<Item = u8>) -> u64 {
    bytes.into_iter().fold(0xcbf29ce484222325, |h, b| (h ^ b as u64).wrapping_mul(0x100000001b3))
}

/// An empty folder for one test, outside the repository, in which `rt ci` wants no links; each checkout has its own.
pub fn room(name: &str) -> PathBuf {
    let room = std::env::temp_dir().join(format!("crunch-proved-{:x}", hash(env!("CARGO_TARGET_TMPDIR").bytes()))).join(name);
    let _ = std::fs::remove_dir_all(&room);
    std::fs::create_dir_all(&room).unwrap();
    room
}

/// The names in a folder, in order.
pub fn names(folder: &Path) -> Vec<String> {
    let mut names: Vec<String> = std::fs::read_dir(folder).unwrap().map(|e| e.unwrap().file_name().into_string().unwrap()).collect();
    names.sort();
    names
}

/// `crn`, run in the repository's folder.
pub fn crn(words: &[&str]) -> Output {
    Command::new(env!("CARGO_BIN_EXE_crn")).args(words).current_dir(root("")).output().unwrap()
}

/// The status, standard output and standard error of a run.
pub fn told(output: Output) -> (i32, String, String) {
    let text = |bytes: Vec<u8>| String::from_utf8(bytes).unwrap();
    (output.status.code().expect("it ended by itself"), text(output.stdout), text(output.stderr))
}

/// A text with each of its lines' beginning spaces kept, as README shows a command's output: the block after the line with the command.
pub fn shown(command: &str) -> String {
    let readme = std::fs::read_to_string(root("README.md")).unwrap();
    let after = readme.split_once(&format!("$ {command}\n")).unwrap_or_else(|| panic!("README shows no `{command}`")).1;
    after.split("```").next().unwrap().split("\n$ ").next().unwrap().trim_end().to_string() + "\n"
}

/// The archive that this package is linked with.
pub fn archive() -> PathBuf {
    Path::new(env!("OUT_DIR")).join("libcrunch_abi.a")
}

/// `cc`, or `c++` for a standard of C++, over include/, where every warning is an error.
pub fn compiler(standard: &str) -> Command {
    let mut command = Command::new(if standard.starts_with("c++") { "c++" } else { "cc" });
    command.args(["-O2", "-Wall", "-Wextra", "-Werror", "-pedantic", "-I"]).arg(root("include")).arg(format!("-std={standard}"));
    command
}

/// Compiles a program of C or C++ over the archive.
pub fn compiled(standard: &str, source: &Path, room: &Path) -> PathBuf {
    let made = room.join("program");
    let said = compiler(standard).arg(source).arg(archive()).args(["-pthread", "-o"]).arg(&made).output().unwrap();
    assert_eq!(told(said), (0, String::new(), String::new()), "{}", source.display());
    made
}

/// What a C program over the archive says, run in the repository's folder.
pub fn c(source: &Path, room: &Path) -> (i32, String, String) {
    told(Command::new(compiled("c11", source, room)).current_dir(root("")).output().unwrap())
}
