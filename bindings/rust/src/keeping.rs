//! A state in a file, for one host at a time, so that a host that is cut off finds the old state or the new one.

use crate::{Refused, State};
use std::fs::{self, File, OpenOptions};
use std::io::{self, Write};
use std::os::fd::AsRawFd;
use std::path::{Path, PathBuf};
use std::process;
use std::sync::atomic::{AtomicU64, Ordering};

extern "C" {
    fn flock(file: i32, how: i32) -> i32;
}
const LOCK_EX: i32 = 2;

fn beside(name: &Path, end: &str) -> PathBuf {
    let mut other = name.as_os_str().to_owned();
    other.push(end);
    other.into()
}

fn locked(name: &Path) -> io::Result<File> {
    let file = OpenOptions::new().append(true).create(true).open(beside(name, ".lock"))?;
    loop {
        // SAFETY: the file is open.
        if unsafe { flock(file.as_raw_fd(), LOCK_EX) } == 0 {
            return Ok(file);
        }
        let error = io::Error::last_os_error();
        if error.kind() != io::ErrorKind::Interrupted {
            return Err(error);
        }
    }
}

/// Saves a state: written whole under a name of its own, brought to disk, renamed over the old, and the folder brought to disk.
fn save(state: &State, name: &Path) -> io::Result<()> {
    static SAVES: AtomicU64 = AtomicU64::new(0);
    let other = beside(name, &format!(".{}-{}", process::id(), SAVES.fetch_add(1, Ordering::Relaxed)));
    let mut file = OpenOptions::new().write(true).create_new(true).open(&other)?;
    let saved = file.write_all(state.bytes()).and_then(|()| file.sync_all()).and_then(|()| fs::rename(&other, name));
    if saved.is_err() {
        let _ = fs::remove_file(&other);
        return saved;
    }
    let folder = name.parent().filter(|folder| !folder.as_os_str().is_empty()).unwrap_or(Path::new("."));
    File::open(folder)?.sync_all()
}

/// Puts a state into a file, locked (NAME.lock), in place of whatever that holds.
pub fn replace(name: impl AsRef<Path>, state: &State) -> io::Result<()> {
    let _lock = locked(name.as_ref())?;
    save(state, name.as_ref())
}

/// Lends the state of a file: locked (NAME.lock), read, lent to `work`, and saved where it changed and `work` answers `Ok`. Where there is no such file, a
/// fresh state with `plan`; without a plan, or where the file holds no state, an error of the kind `NotFound` or `InvalidData`.
pub fn kept<T, E>(name: impl AsRef<Path>, plan: Option<&[u8]>, work: impl FnOnce(&mut State) -> Result<T, E>) -> io::Result<Result<T, E>> {
    let name = name.as_ref();
    let _lock = locked(name)?;
    let wrong = |refused: Refused| io::Error::new(io::ErrorKind::InvalidData, refused);
    let (before, mut state) = match (fs::read(name), plan) {
        (Ok(bytes), _) => {
            let state = State::from_bytes(&bytes).map_err(wrong)?;
            (bytes, state)
        }
        (Err(error), Some(plan)) if error.kind() == io::ErrorKind::NotFound => (Vec::new(), State::load(plan).map_err(wrong)?),
        (Err(error), _) => return Err(error),
    };
    let answer = work(&mut state);
    if answer.is_ok() && state.bytes() != before {
        save(&state, name)?;
    }
    Ok(answer)
}
