//! Files that are named as arguments, and a folder to hold them.

use std::ffi::OsString;
use std::path::{Path, PathBuf};
use std::{env, fs, io, process};

/// What an argument names.
pub enum File {
    Holding(Vec<u8>),
    /// By a name of so many bytes.
    LongNamed(usize, Vec<u8>),
    Absent,
    Folder,
    /// The argument is empty.
    Nameless,
}

use File::*;

/// The system opens no name that has more bytes.
pub const MOST_PATH_BYTES: usize = 4_095;

impl File {
    /// What can't be opened or read counts as 0 bytes.
    pub fn bytes(&self) -> &[u8] {
        match self {
            Holding(bytes) => bytes,
            LongNamed(length, bytes) if *length <= MOST_PATH_BYTES => bytes,
            _ => &[],
        }
    }
}

/// A folder for the files of one input at a time, gone when it is dropped.
pub struct Room {
    folder: PathBuf,
    kept: bool,
}

impl Room {
    /// In memory where there is such a place; each worker has its own.
    pub fn of_worker(worker: usize) -> io::Result<Room> {
        let name = format!("reference-{}-{worker}", process::id());
        let place = |folder: PathBuf| Room::at(folder.join(&name), false);
        place("/dev/shm".into()).or_else(|_| place(env::temp_dir()))
    }

    /// For a reader to look into: it stays.
    pub fn to_keep(name: &str) -> io::Result<Room> {
        Room::at(env::temp_dir().join(name), true)
    }

    fn at(folder: PathBuf, kept: bool) -> io::Result<Room> {
        match fs::create_dir(&folder) {
            Err(error) if error.kind() != io::ErrorKind::AlreadyExists => Err(error),
            _ => Ok(Room { folder, kept }),
        }
    }

    /// The files made anew; the arguments that name them.
    pub fn lay_out(&self, files: &[File]) -> io::Result<Vec<OsString>> {
        let named = (1..)
            .zip(files)
            .map(|(number, file)| self.put(number, file));
        named.collect()
    }

    fn put(&self, number: usize, file: &File) -> io::Result<OsString> {
        let path = self.folder.join(number.to_string());
        match file {
            Holding(bytes) | LongNamed(_, bytes) => fs::write(&path, bytes)?,
            Absent | Folder | Nameless => {}
        }
        Ok(match file {
            Holding(_) => path.into(),
            LongNamed(length, _) => lengthened(&self.folder, number, *length),
            Absent => self.folder.join("absent").into(),
            Folder => self.folder.clone().into(),
            Nameless => OsString::new(),
        })
    }
}

impl Drop for Room {
    fn drop(&mut self) {
        if !self.kept {
            // Nobody is left to be told.
            let _ = fs::remove_dir_all(&self.folder);
        }
    }
}

/// A name with as many slashes before the last part as make it so long.
fn lengthened(folder: &Path, number: usize, length: usize) -> OsString {
    let (mut name, last) = (OsString::from(folder), number.to_string());
    let slashes = length - name.len() - last.len();
    name.push("/".repeat(slashes));
    name.push(last);
    name
}
