//! The files of the current folder.

use std::fs::{self, File, OpenOptions, Permissions};
use std::io::{self, ErrorKind, Read, Write};

pub const FILE_LIMIT: u64 = 1_048_576;
pub const SCRIPT_LIMIT: u64 = 4_194_304;

pub enum NotFetched {
    Missing,
    TooLarge,
    Failed,
}

/// Returns the bytes of the file `name`, if they are at most `limit`.
pub fn fetch(name: &str, limit: u64) -> Result<Vec<u8>, NotFetched> {
    let mut bytes = Vec::new();
    let read = File::open(name).and_then(|f| {
        let known = f.metadata().map_or(0, |m| m.len());
        bytes.reserve(known.min(limit) as usize + 1);
        f.take(limit + 1).read_to_end(&mut bytes)
    });
    match read {
        Err(e) if e.kind() == ErrorKind::NotFound => Err(NotFetched::Missing),
        Err(_) => Err(NotFetched::Failed),
        Ok(n) if n as u64 > limit => Err(NotFetched::TooLarge),
        Ok(_) => Ok(bytes),
    }
}

/// Writes the bytes into a new file, which replaces the old one, as `vmstate` does. If the name is no regular file, it
/// stays and the bytes are written into it.
pub fn store(name: &str, bytes: &[u8]) -> io::Result<()> {
    match fs::symlink_metadata(name) {
        Ok(there) if there.is_file() => {
            // only a file that may be written is replaced
            let _old = OpenOptions::new().write(true).open(name)?;
            replace(name, bytes, Some(there.permissions()))
        }
        Ok(_) => fs::write(name, bytes),
        Err(error) if error.kind() == ErrorKind::NotFound => replace(name, bytes, None),
        Err(error) => Err(error),
    }
}

fn replace(name: &str, bytes: &[u8], mode: Option<Permissions>) -> io::Result<()> {
    let beside = format!(".{name}.new");
    let mut file = match File::create_new(&beside) {
        Err(error) if error.kind() == ErrorKind::AlreadyExists => {
            fs::remove_file(&beside)?;
            File::create_new(&beside)
        }
        created => created,
    }?;
    let replaced = fill(&mut file, bytes, mode).and_then(|()| fs::rename(&beside, name));
    if replaced.is_err() {
        let _removed = fs::remove_file(&beside);
    }
    replaced
}

fn fill(file: &mut File, bytes: &[u8], mode: Option<Permissions>) -> io::Result<()> {
    if let Some(mode) = mode {
        file.set_permissions(mode)?;
    }
    file.write_all(bytes)?;
    file.sync_all()
}
