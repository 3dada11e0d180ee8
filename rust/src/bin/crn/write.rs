//! Files written: whole or not at all, over nothing that is there unless that is asked for, and with nothing left by a signal.
use crate::files::{self, Found, Input, Inputs};
use crate::names::shown;
use crate::signals;
use std::collections::hash_map::{Entry, HashMap};
use std::collections::HashSet;
use std::ffi::OsString;
use std::fs::{self, File};
use std::io::{Error, ErrorKind, Write};
use std::path::{Path, PathBuf};
use std::sync::atomic::{AtomicU64, Ordering};
use std::sync::{Mutex, MutexGuard, PoisonError};

/// The files that are there under other names than their own. Each is made, and gets its name, while this is held: so a signal finds all of
/// them.
static PARTS: Mutex<Vec<PathBuf>> = Mutex::new(Vec::new());

fn parts() -> MutexGuard<'static, Vec<PathBuf>> {
    PARTS.lock().unwrap_or_else(PoisonError::into_inner)
}

/// Sees to it that a signal leaves no part. To be called before any thread is started.
pub fn leave_nothing_at_a_signal() {
    signals::before_the_end(|| {
        let parts = parts();
        for part in parts.iter() {
            let _ = fs::remove_file(part);
        }
        // nobody makes another now
        std::mem::forget(parts);
    });
}

/// Files that are written under other names first, and get their own once all of them are whole. Dropped before that, they leave nothing.
pub struct Whole {
    force: bool,
    waiting: Vec<(PathBuf, PathBuf)>,
}

impl Whole {
    /// With force, files that are there are replaced.
    pub fn new(force: bool) -> Whole {
        Whole { force, waiting: Vec::new() }
    }

    pub fn write(&mut self, path: &Path, bytes: &[u8]) -> Result<(), Error> {
        self.write_by(path, |file| file.write_all(bytes)).map(|_| ())
    }

    /// The same of what a function writes; how many bytes that is.
    pub fn write_by(&mut self, path: &Path, by: impl FnOnce(&mut dyn Write) -> Result<(), Error>) -> Result<u64, Error> {
        let mut file = self.begin(path)?;
        by(&mut file)?;
        file.sync_all()?;
        Ok(file.metadata()?.len())
    }

    /// A new file beside the one that it will be, with a name that no other has.
    fn begin(&mut self, path: &Path) -> Result<File, Error> {
        static NEXT: AtomicU64 = AtomicU64::new(0);
        let mut parts = parts();
        loop {
            let part = path.with_file_name(format!(".crn-{}-{}.part", std::process::id(), NEXT.fetch_add(1, Ordering::Relaxed)));
            match File::options().write(true).create_new(true).open(&part) {
                // left by a command that was killed
                Err(e) if e.kind() == ErrorKind::AlreadyExists => continue,
                Err(e) => return Err(e),
                Ok(file) => {
                    parts.push(part.clone());
                    self.waiting.push((part, path.into()));
                    return Ok(file);
                }
            }
        }
    }

    /// Gives all files their names; or says which could not get its own. Without force then none has.
    pub fn done(self) -> Result<(), (PathBuf, Error)> {
        let _held = parts();
        for (n, (part, path)) in self.waiting.iter().enumerate() {
            let named = if self.force { fs::rename(part, path) } else { name(part, path) };
            if let Err(e) = named {
                let ours = if self.force { 0 } else { n };
                self.waiting[..ours].iter().for_each(|(_, path)| drop(fs::remove_file(path)));
                return Err((path.clone(), e));
            }
        }
        Ok(())
    }
}

/// Gives a part its name where nothing has it: a link is made only there, and a rename would replace. Where links can't be made, an empty
/// file takes the name first.
fn name(part: &Path, path: &Path) -> Result<(), Error> {
    match fs::hard_link(part, path) {
        Err(e) if e.kind() != ErrorKind::AlreadyExists => {
            File::options().write(true).create_new(true).open(path)?;
            fs::rename(part, path).inspect_err(|_| drop(fs::remove_file(path)))
        }
        done => done,
    }
}

impl Drop for Whole {
    fn drop(&mut self) {
        let mut parts = parts();
        for (part, _) in &self.waiting {
            let _ = fs::remove_file(part);
            parts.retain(|other| other != part);
        }
    }
}

/// What went wrong with a file that was to be written, in a person's words.
pub fn trouble(error: &Error) -> String {
    match error.kind() {
        ErrorKind::AlreadyExists => "it is there already, and is replaced only with --force".into(),
        ErrorKind::NotFound => "there is no such folder".into(),
        _ => files::trouble(error),
    }
}

/// Makes the folder that files go into, where it is missing.
pub fn folder(path: &Path) -> Result<(), String> {
    let cant = |e| format!("{}: the folder can't be made: {}", shown(path), files::trouble(&e));
    fs::create_dir_all(path).map_err(cant)
}

/// The places that files may be written to: where nothing is; with force over what is there, if that is no file to be read.
pub struct Places {
    pub force: bool,
    read: HashSet<PathBuf>,
}

impl Places {
    /// With force all inputs have to be known before the first is worked on, since none of them may be written over; without it they are
    /// found by and by.
    pub fn new(force: bool, inputs: Inputs) -> (Places, Box<dyn Iterator<Item = Found> + Send>) {
        if !force {
            return (Places { force, read: HashSet::new() }, Box::new(inputs));
        }
        let found: Vec<Found> = inputs.collect();
        let real = |found: &Found| match &found.input {
            Input::File(path) => path.canonicalize().ok(),
            Input::Standard => None,
        };
        (Places { force, read: found.iter().filter_map(real).collect() }, Box::new(found.into_iter()))
    }

    /// Whether a file that is there would be replaced; or why none can be written.
    pub fn free(&self, path: &Path) -> Result<bool, String> {
        // a link that leads nowhere is there too
        if fs::symlink_metadata(path).is_err() {
            return Ok(false);
        }
        fs::metadata(path).map_or(Ok(()), |about| files::file(&about))?;
        if !self.force {
            return Err(trouble(&ErrorKind::AlreadyExists.into()));
        }
        if path.canonicalize().is_ok_and(|path| self.read.contains(&path)) {
            return Err("it is one of the files to read, and they are not replaced".into());
        }
        Ok(true)
    }
}

/// Which input has a name for what is made of it: of several with one name the first. This is kept for each, as each leaves a file.
#[derive(Default)]
pub struct Given(HashMap<OsString, Input>);

impl Given {
    /// Takes a name for an input; or says which has it already.
    pub fn take(&mut self, name: OsString, input: &Input) -> Result<(), String> {
        match self.0.entry(name) {
            Entry::Occupied(first) => Err(first.get().shown()),
            Entry::Vacant(free) => {
                free.insert(input.clone());
                Ok(())
            }
        }
    }
}

#[cfg(test)]
mod tests {
    use super::*;

    /// A folder for one test, with a file in it.
    fn room(name: &str) -> PathBuf {
        let room = std::env::temp_dir().join(format!("crn-{name}-{}", std::process::id()));
        fs::create_dir_all(&room).unwrap();
        fs::write(room.join("b"), "of yesterday").unwrap();
        room
    }

    fn names(room: &Path) -> Vec<OsString> {
        let mut names: Vec<OsString> = fs::read_dir(room).unwrap().map(|entry| entry.unwrap().file_name()).collect();
        names.sort();
        names
    }

    /// One that came between the look at the names and the giving of them is not replaced, and those that were given are taken back.
    #[test]
    fn of_several_files_all_get_their_names_or_none() {
        let room = room("whole");
        for (force, left, b) in [(false, vec!["b"], "of yesterday"), (true, vec!["a", "b", "c"], "new")] {
            let mut whole = Whole::new(force);
            for name in ["a", "b", "c"] {
                whole.write(&room.join(name), b"new").unwrap();
            }
            assert_eq!(parts().iter().filter(|part| part.starts_with(&room)).count(), 3);
            let done = whole.done().map_err(|(path, e)| (path, e.kind()));
            assert_eq!(done.err(), (!force).then(|| (room.join("b"), ErrorKind::AlreadyExists)));
            assert_eq!(names(&room), left);
            assert_eq!(fs::read_to_string(room.join("b")).unwrap(), b);
            assert_eq!(parts().iter().filter(|part| part.starts_with(&room)).count(), 0);
        }
        fs::remove_dir_all(room).unwrap();
    }

    /// What a command left that was killed is not written over, also where it had our number.
    #[test]
    fn a_part_gets_a_name_that_is_free() {
        let room = room("free");
        let left = |n: u32| room.join(format!(".crn-{}-{n}.part", std::process::id()));
        (0..100).for_each(|n| fs::write(left(n), "left").unwrap());
        let mut whole = Whole::new(false);
        whole.write(&room.join("a"), b"new").unwrap();
        whole.done().unwrap();
        assert!((0..100).all(|n| fs::read(left(n)).unwrap() == b"left") && fs::read(room.join("a")).unwrap() == b"new");
        fs::remove_dir_all(room).unwrap();
    }

    /// A link is refused to a folder; so by it the other way is seen: it takes a name that is free, and none that is not.
    #[test]
    fn where_links_cant_be_made_a_name_is_taken_first() {
        let room = room("links");
        let (part, path) = (room.join("part"), room.join("a"));
        fs::create_dir(&part).unwrap();
        assert!(fs::hard_link(&part, &path).is_err_and(|e| e.kind() != ErrorKind::AlreadyExists));
        assert_eq!(name(&part, &room.join("b")).map_err(|e| e.kind()), Err(ErrorKind::AlreadyExists));
        assert_eq!(fs::read(room.join("b")).unwrap(), b"of yesterday");
        // a folder can't take a file's place: nothing is left of the name
        assert!(name(&part, &path).is_err() && !path.exists());
        fs::remove_dir_all(room).unwrap();
    }
}
