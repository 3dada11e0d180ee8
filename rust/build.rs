// Links the proved archive: the one that CRUNCH_ABI_ARCHIVE names, or the one that `rust/archive` makes for the target's processor.
//
// Paths are asked for when this runs, and the archive is copied beside what is built: what cargo keeps of a checkout that was then moved or
// copied, or of a package, would name the folder that this was compiled in.
use std::env::{var, var_os};
use std::path::{Path, PathBuf};
use std::process::{exit, Command, Stdio};

fn fail(why: String) -> ! {
    eprintln!("crunch-proved: {why}");
    exit(1)
}

/// What a build without the means is told.
const ELSEWHERE: &str = "an archive that was made elsewhere can be named by CRUNCH_ABI_ARCHIVE=path";

/// What the archive is made of, as paths from the package's folder: of each crate all but what `rt` leaves in its out/.
fn sources(root: &Path) -> Vec<String> {
    let names = |folder: &Path| -> Vec<String> {
        let entries = std::fs::read_dir(folder).map(|entries| entries.flatten().collect::<Vec<_>>()).unwrap_or_default();
        let mut names: Vec<String> = entries.into_iter().filter_map(|entry| entry.file_name().into_string().ok()).collect();
        names.sort();
        names
    };
    let crates = root.join("crates");
    let parts = names(&crates).into_iter().flat_map(|name| {
        let parts = names(&crates.join(&name)).into_iter().filter(|part| !["out", "must-fail"].contains(&part.as_str()));
        parts.map(|part| format!("../crates/{name}/{part}")).collect::<Vec<_>>()
    });
    ["archive", "../crates.txt"].map(String::from).into_iter().chain(parts).collect()
}

/// The archive of `rust/archive`, as a path from the package's folder, which cargo then looks at wherever the checkout stands.
fn made(package: &Path, target: &str) -> PathBuf {
    let root = package.parent().filter(|root| root.join("crates.txt").is_file() && package.join("archive").is_file());
    let Some(root) = root else {
        fail(format!("the package stands outside its repository, where the proved archive would be made; {ELSEWHERE}"));
    };
    if var("CARGO_CFG_TARGET_OS").as_deref() != Ok("linux") {
        fail(format!("for {target} no archive can be made here, only for Linux; {ELSEWHERE}"));
    }
    for source in sources(root) {
        println!("cargo::rerun-if-changed={source}");
    }
    let machine = var("CARGO_CFG_TARGET_ARCH").expect("cargo sets it");
    let said = Command::new(package.join("archive")).args(["crunch_abi", &machine]).stderr(Stdio::inherit()).output();
    let said = said.unwrap_or_else(|error| fail(format!("rust/archive can't be run: {error}")));
    if !said.status.success() {
        fail(format!("rust/archive made no archive for {target}; what it said stands above"));
    }
    let path = String::from_utf8(said.stdout).expect("a path");
    let path = Path::new(path.trim_end());
    path.strip_prefix(root).map_or(path.to_path_buf(), |below| Path::new("..").join(below))
}

fn main() {
    let folder = |name: &str| PathBuf::from(var_os(name).expect("cargo sets it"));
    let (package, out) = (folder("CARGO_MANIFEST_DIR"), folder("OUT_DIR"));
    let target = var("TARGET").expect("cargo sets it");
    println!("cargo::rerun-if-changed=build.rs");
    println!("cargo::rerun-if-env-changed=CRUNCH_ABI_ARCHIVE");
    // .cargo/config.toml sets it to the checkout's place: tests hold paths too, and are built anew where it changed
    println!("cargo::rerun-if-env-changed=CRUNCH_PLACE");
    if var("CARGO_CFG_TARGET_POINTER_WIDTH").as_deref() != Ok("64") {
        fail(format!("the proved archive is for 64-bit processors, and {target} is another"));
    }
    let named = var_os("CRUNCH_ABI_ARCHIVE").filter(|name| !name.is_empty());
    let archive = named.as_ref().map_or_else(|| made(&package, &target), PathBuf::from);
    println!("cargo::rerun-if-changed={}", archive.display());
    // a path that is not absolute is taken from the package's folder
    let from = package.join(&archive);
    let copied = std::fs::read(&from).and_then(|bytes| std::fs::write(out.join("libcrunch_abi.a"), &bytes).map(|()| bytes));
    match copied {
        Ok(bytes) if bytes.starts_with(b"!<arch>\n") => (),
        Ok(_) => fail(format!("{} is no archive", from.display())),
        Err(error) if named.is_some() => fail(format!("CRUNCH_ABI_ARCHIVE names {}, which can't be read: {error}", from.display())),
        Err(error) => fail(format!("{}: {error}", from.display())),
    }
    println!("cargo::rustc-link-search=native={}", out.display());
    println!("cargo::rustc-link-lib=static=crunch_abi");
}
