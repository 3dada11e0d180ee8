//! Files: found one after another, opened, and worked on by several threads with their answers in order. Nothing here grows with the number
//! of files.
use crate::{json, names, Failure};
use std::collections::BTreeMap;
use std::ffi::{OsStr, OsString};
use std::fs::{self, File, Metadata, ReadDir};
use std::io::{BufRead, BufReader, Error, ErrorKind, Read};
use std::path::{Path, PathBuf};
use std::sync::{mpsc, Condvar, Mutex, MutexGuard, PoisonError};

/// What went wrong, in a person's words.
pub fn trouble(error: &Error) -> String {
    match error.kind() {
        ErrorKind::NotFound => "there is no such file".into(),
        ErrorKind::PermissionDenied => "there is no permission for it".into(),
        ErrorKind::StorageFull => "the disk is full".into(),
        _ => error.to_string(),
    }
}

/// That it is a file, and no folder or device.
pub fn file(about: &Metadata) -> Result<(), String> {
    if about.is_dir() {
        return Err("it is a folder, and a file is wanted".into());
    }
    if !about.is_file() {
        return Err("it is no file".into());
    }
    Ok(())
}

/// What is read: a file, or standard input.
#[derive(Clone)]
pub enum Input {
    Standard,
    File(PathBuf),
}

impl Input {
    /// What it is called, for people.
    pub fn shown(&self) -> String {
        match self {
            Input::Standard => "standard input".into(),
            Input::File(path) => names::shown(path),
        }
    }

    /// What it is called, as a field of JSON.
    pub fn json(&self) -> String {
        json::file(match self {
            Input::Standard => OsStr::new("-"),
            Input::File(path) => path.as_os_str(),
        })
    }

    /// What the files that are made of it are called.
    pub fn stem(&self) -> &OsStr {
        match self {
            Input::Standard => OsStr::new("stdin"),
            Input::File(path) => path.file_stem().unwrap_or_default(),
        }
    }

    /// Its bytes, to be read, and how many there are, where that is known. What is no file (a pipe, a device) is not opened: that could
    /// take for ever.
    pub fn open(&self) -> Result<(Box<dyn Read>, Option<u64>), String> {
        let Input::File(path) = self else { return Ok((Box::new(std::io::stdin().lock()), None)) };
        let about = fs::metadata(path).map_err(|e| trouble(&e))?;
        file(&about)?;
        if about.len() > u32::MAX as u64 {
            return Err("it is longer than 4,294,967,295 bytes, which no CRN file is".into());
        }
        Ok((Box::new(File::open(path).map_err(|e| trouble(&e))?), Some(about.len())))
    }
}

/// What was found: something to read; or with it why there is nothing.
pub struct Found {
    pub input: Input,
    pub trouble: Option<String>,
}

impl Found {
    fn file(path: PathBuf) -> Found {
        Found { input: Input::File(path), trouble: None }
    }

    fn trouble(path: &Path, why: String) -> Found {
        Found { input: Input::File(path.into()), trouble: Some(why) }
    }
}

/// A list of names, each ended by a byte.
pub struct List {
    from: Box<dyn BufRead + Send>,
    input: Input,
    end: u8,
}

/// No name is as long, and a list without an end to its first must not fill the memory.
const LONGEST: u64 = 1 << 16;

impl List {
    /// Opens a list, or says why it can't be. Here a pipe is as good as a file.
    pub fn open(name: &OsStr, end: u8) -> Result<List, String> {
        let cant = |e| format!("{}: {}", names::shown(name), trouble(&e));
        let (from, input): (Box<dyn BufRead + Send>, _) = if name == "-" {
            (Box::new(BufReader::new(std::io::stdin())), Input::Standard)
        } else {
            (Box::new(BufReader::new(File::open(name).map_err(cant)?)), Input::File(name.into()))
        };
        Ok(List { from, input, end })
    }

    fn next(&mut self) -> Result<Option<OsString>, String> {
        loop {
            let mut bytes = Vec::new();
            self.from.by_ref().take(LONGEST).read_until(self.end, &mut bytes).map_err(|e| trouble(&e))?;
            if bytes.is_empty() {
                return Ok(None);
            }
            if bytes.last() == Some(&self.end) {
                bytes.pop();
            } else if bytes.len() as u64 == LONGEST {
                return Err("it has a name of more than 65,535 bytes, and is no list of names".into());
            }
            if !bytes.is_empty() {
                return names::of_bytes(&bytes).map(Some).ok_or_else(|| "it has a name that is no text".into());
            }
        }
    }
}

/// A folder that is gone through. Its names are sorted in runs of 65,536, and these come in the folder's own order: to sort all of them,
/// all would have to be kept.
struct Folder {
    path: PathBuf,
    list: Option<ReadDir>,
    run: std::vec::IntoIter<(OsString, bool)>,
}

const RUN: usize = if cfg!(test) { 8 } else { 1 << 16 };

impl Folder {
    /// The next name and whether it is a folder's. An error is the last answer but for the names that came with it.
    fn next(&mut self, all: bool) -> Option<Result<(OsString, bool), Error>> {
        while self.run.len() == 0 {
            let mut run = Vec::new();
            for entry in self.list.as_mut()? {
                match entry {
                    Ok(entry) => {
                        let kind = entry.file_type();
                        let (folder, link) = kind.map_or((false, false), |kind| (kind.is_dir(), kind.is_symlink()));
                        let named = all || Path::new(&entry.file_name()).extension().is_some_and(|e| e.eq_ignore_ascii_case("crn"));
                        // a link to a folder is not followed: it may lead in a circle
                        if folder || (named && !(link && entry.path().is_dir())) {
                            run.push((entry.file_name(), folder));
                        }
                    }
                    Err(e) => {
                        self.list = None;
                        run.sort();
                        self.run = run.into_iter();
                        return Some(Err(e));
                    }
                }
                if run.len() == RUN {
                    break;
                }
            }
            if run.len() < RUN {
                // nothing is left: a folder is held open only while there is more to read
                self.list = None;
            }
            run.sort();
            self.run = run.into_iter();
        }
        self.run.next().map(Ok)
    }
}

/// The files to look at, found as they are asked for: those named, those that a list names, and of a folder all below it whose names end in
/// `.crn` (or all). A folder that can't be read, or has none, is told.
pub struct Inputs {
    names: std::vec::IntoIter<OsString>,
    list: Option<List>,
    all: bool,
    /// The folder that was named, those below it that lead to where we are, and whether anything was found there.
    folders: Vec<Folder>,
    any: bool,
}

impl Inputs {
    pub fn new(names: Vec<OsString>, list: Option<List>, all: bool) -> Inputs {
        Inputs { names: names.into_iter(), list, all, folders: Vec::new(), any: false }
    }

    /// Goes into a folder, or says why not.
    fn enter(&mut self, path: PathBuf) -> Option<Found> {
        match fs::read_dir(&path) {
            Ok(list) => self.folders.push(Folder { path, list: Some(list), run: Vec::new().into_iter() }),
            Err(e) => return Some(Found::trouble(&path, trouble(&e))),
        }
        None
    }

    /// The next in the folders that are gone through; nothing where there is no more.
    fn below(&mut self) -> Option<Found> {
        while let Some(folder) = self.folders.last_mut() {
            let found = match folder.next(self.all) {
                Some(Ok((name, false))) => Some(Found::file(folder.path.join(name))),
                Some(Ok((name, true))) => {
                    let path = folder.path.join(name);
                    self.enter(path)
                }
                Some(Err(e)) => Some(Found::trouble(&folder.path, trouble(&e))),
                None => {
                    let path = self.folders.pop()?.path;
                    let none = || format!("there is no file below this folder{}", if self.all { "" } else { " whose name ends in .crn" });
                    (self.folders.is_empty() && !self.any).then(|| Found::trouble(&path, none()))
                }
            };
            if found.is_some() {
                self.any = true;
                return found;
            }
        }
        None
    }
}

impl Iterator for Inputs {
    type Item = Found;

    fn next(&mut self) -> Option<Found> {
        loop {
            if let Some(found) = self.below() {
                return Some(found);
            }
            let path = match self.names.next() {
                Some(name) if name == "-" => return Some(Found { input: Input::Standard, trouble: None }),
                Some(name) => PathBuf::from(name),
                None => match self.list.as_mut()?.next() {
                    Ok(Some(name)) => PathBuf::from(name),
                    Ok(None) => return None,
                    Err(why) => return self.list.take().map(|list| Found { input: list.input, trouble: Some(why) }),
                },
            };
            if !path.is_dir() {
                return Some(Found::file(path));
            }
            self.any = false;
            if let Some(found) = self.enter(path) {
                return Some(found);
            }
        }
    }
}

/// So many answers at most wait for their turn, for each thread: one that is further ahead than that waits itself.
const AHEAD: u64 = 256;

/// Which answer is due, whether a thread waits until it is a later one, and whether there is no use in more.
struct Turn {
    due: u64,
    waited_for: bool,
    over: bool,
}

fn lock<T>(of: &Mutex<T>) -> MutexGuard<'_, T> {
    of.lock().unwrap_or_else(PoisonError::into_inner)
}

/// Works on all items by so many threads, each with what it keeps from one to the next, and hands each answer over in the items' order. The
/// items are asked for as they are needed.
pub fn in_order<I, K, A, W>(
    jobs: usize,
    items: I,
    kept: impl Fn() -> K + Sync,
    work: W,
    mut each: impl FnMut(I::Item, A) -> Result<(), Error>,
) -> Result<(), Failure>
where
    I: Iterator + Send,
    I::Item: Send,
    A: Send,
    W: Fn(&mut K, &I::Item) -> A + Sync,
{
    let feed = Mutex::new(items.zip(0u64..).fuse());
    let (turn, turned) = (Mutex::new(Turn { due: 0, waited_for: false, over: false }), Condvar::new());
    let (send, receive) = mpsc::channel();
    let ahead = AHEAD * jobs as u64;
    let over = || {
        lock(&turn).over = true;
        turned.notify_all();
    };
    let labour = |send: mpsc::Sender<(u64, I::Item, A)>| {
        let mut kept = kept();
        loop {
            let mut feed = lock(&feed);
            let Some((item, n)) = feed.next() else { break };
            // it waits with the feed in its hands, and so nobody else gets further ahead
            let mut turn = lock(&turn);
            while !turn.over && n >= turn.due + ahead {
                turn.waited_for = true;
                turn = turned.wait(turn).unwrap_or_else(PoisonError::into_inner);
            }
            if turn.over {
                break;
            }
            drop((turn, feed));
            let answer = work(&mut kept, &item);
            if send.send((n, item, answer)).is_err() {
                break;
            }
        }
    };
    // a thread that dies of a panic leaves an answer out, which no other may wait for
    struct OnPanic<F: Fn()>(F);
    impl<F: Fn()> Drop for OnPanic<F> {
        fn drop(&mut self) {
            if std::thread::panicking() {
                self.0();
            }
        }
    }
    std::thread::scope(|scope| {
        for started in 0..jobs {
            let (send, labour, over) = (send.clone(), &labour, &over);
            let run = move || {
                let _watch = OnPanic(over);
                labour(send);
            };
            match std::thread::Builder::new().spawn_scoped(scope, run) {
                Err(e) if started == 0 => return Err(Failure::Trouble(format!("no thread can be started: {e}"))),
                // where there can't be as many threads, fewer do it
                Err(_) => break,
                Ok(_) => {}
            }
        }
        drop(send);
        let (mut early, mut due) = (BTreeMap::new(), 0);
        for (n, item, answer) in receive {
            early.insert(n, (item, answer));
            while let Some((item, answer)) = early.remove(&due) {
                each(item, answer).inspect_err(|_| over())?;
                due += 1;
            }
            let mut turn = lock(&turn);
            turn.due = due;
            if std::mem::take(&mut turn.waited_for) {
                turned.notify_all();
            }
        }
        Ok(())
    })
}

#[cfg(test)]
mod tests {
    use super::*;

    /// All files of a folder of several runs are found, each once, and each run is in order; nothing between them is lost.
    #[test]
    fn a_large_folder_comes_in_sorted_runs() {
        let room = std::env::temp_dir().join(format!("crn-runs-{}", std::process::id()));
        let name = |n: u32| format!("{n:02}{}.crn", if n % 10 == 4 { "/a" } else { "" });
        let wanted: Vec<PathBuf> = (0..30).map(|n| room.join(name(n))).collect();
        for path in &wanted {
            fs::create_dir_all(path.parent().unwrap()).unwrap();
            fs::write(path, "x").unwrap();
        }
        let inputs = Inputs::new(vec![room.clone().into()], None, false);
        let found: Vec<PathBuf> = inputs.map(|found| if let Input::File(path) = found.input { path } else { PathBuf::new() }).collect();
        assert!(found.chunks(RUN).all(|run| run.is_sorted()), "{found:?}");
        let mut sorted = found;
        sorted.sort();
        assert_eq!(sorted, wanted);
        fs::remove_dir_all(room).unwrap();
    }

    /// A thread that panics takes the others with it: nobody waits for the answer that it owes.
    #[test]
    fn a_panic_is_no_standstill() {
        let work = |_: &mut (), n: &u64| assert!(*n != 300, "as asked for");
        let run = || in_order(2, 0..100_000u64, || (), work, |_, _| Ok(())).is_ok();
        let told = std::panic::catch_unwind(std::panic::AssertUnwindSafe(run));
        assert!(told.is_err());
    }
}
