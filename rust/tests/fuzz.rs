//! The fuzz of a fixed seed: no promise is broken, and the run is not idle: files and levels are accepted, and refused for most reasons.
mod common;
use common::{names, root, told};
use std::process::Command;

#[test]
fn damaged_files_and_wild_arguments_break_no_promise() {
    let samples = names(&root("samples")).into_iter().filter(|n| n.ends_with(".crn")).map(|n| root("samples").join(n));
    let run = Command::new(env!("CARGO_BIN_EXE_crn-fuzz")).args(["--seed", "2026", "--rounds", "4000"]).args(samples).output().unwrap();
    let (status, out, err) = told(run);
    assert_eq!((status, err.as_str()), (0, ""));
    let lines: Vec<&str> = out.lines().collect();
    assert_eq!(lines[0], "4000 rounds from seed 2026, no promise broken");
    let opened = (lines[1], &[1, 2, 3, 4, 5, 6, 7, 8][..]);
    let unpacked = (lines[2], &[2, 4, 5, 6, 7, 8, 10, 11, 12, 14, 15][..]);
    let written = (lines[3], &[2, 4, 5, 6, 7, 8, 12, 14, 16][..]);
    let loaded = (lines[4], &[4, 5, 6, 7, 8, 17][..]);
    let pixels = (lines[5], &[2, 12, 18, 28][..]);
    for (line, all) in [opened, unpacked, written, loaded, pixels] {
        for refusal in all {
            assert!(line.split(&[',', ':']).any(|part| part.ends_with(&format!(" by {refusal}"))), "nothing was refused by {refusal}: {line}");
        }
    }
}
