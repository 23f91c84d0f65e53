//! Putting a file in its place, whole or not at all: it is written beside its place and brought to the disk, then given its name, and then
//! that the folder has it is brought to the disk too. What is in it is written by a function that is handed the open file.

mod temporary;

use crate::{names, trouble::Trouble};
use std::{
    ffi::OsStr,
    fs::{self, File, Metadata, OpenOptions},
    io::{self, ErrorKind},
    path::{Path, PathBuf},
};
use temporary::Temporary;

/// From link to link it goes at most so often, as the system has it.
const MOST_LINKS: usize = 40;

/// Writes a file that is not there. Whatever has the name already, or gets it meanwhile, is left as it is.
pub fn create(out: &Path, write: impl FnOnce(&mut File) -> io::Result<()>) -> io::Result<()> {
    if if_there(fs::symlink_metadata(out))?.is_some() {
        return Err(ErrorKind::AlreadyExists.into());
    }
    give_name(Temporary::beside(out, write, None)?, out)?;
    sync_folder(out)
}

/// Gives a file a name that nothing has. A link does that in one step.
fn give_name(temporary: Temporary, out: &Path) -> io::Result<()> {
    match fs::hard_link(temporary.path(), out) {
        Err(error) if matches!(error.kind(), ErrorKind::PermissionDenied | ErrorKind::Unsupported) => reserve(temporary, out),
        linked => linked,
    }
}

/// The same where there are no links, as on a camera's card: the name is reserved by an empty file, which is then replaced.
fn reserve(temporary: Temporary, out: &Path) -> io::Result<()> {
    OpenOptions::new().write(true).create_new(true).open(out)?;
    temporary.rename(out).inspect_err(|_| {
        let _ = fs::remove_file(out);
    })
}

/// Writes a file in the place of the one that is there, if one is. What is no regular file is written to as it is.
pub fn replace(out: &Path, write: impl FnOnce(&mut File) -> io::Result<()>) -> io::Result<()> {
    let old = if_there(fs::metadata(out))?;
    match followed(out)? {
        Some(end) if old.as_ref().is_none_or(Metadata::is_file) => {
            Temporary::beside(&end, write, old.as_ref())?.rename(&end)?;
            sync_folder(&end)
        }
        _ => write(&mut OpenOptions::new().append(true).open(out)?),
    }
}

/// Writes a file in the place of whatever has its name, be that a link: what a link leads to is left as it is, so nothing outside the folder is written.
pub fn replace_name(out: &Path, write: impl FnOnce(&mut File) -> io::Result<()>) -> io::Result<()> {
    let old = if_there(fs::symlink_metadata(out))?.filter(Metadata::is_file);
    Temporary::beside(out, write, old.as_ref())?.rename(out)?;
    sync_folder(out)
}

/// Nothing, where that is missing which was asked about.
fn if_there(said: io::Result<Metadata>) -> io::Result<Option<Metadata>> {
    match said {
        Err(error) if error.kind() == ErrorKind::NotFound => Ok(None),
        said => said.map(Some),
    }
}

/// Where symbolic links lead, whether a file is there or not. Nothing where that is a file that some process has open, as with /dev/stderr:
/// it is to be written to as it is.
fn followed(out: &Path) -> io::Result<Option<PathBuf>> {
    let mut end = out.to_path_buf();
    for _ in 0..MOST_LINKS {
        if fs::canonicalize(folder_of(&end))?.starts_with("/proc") {
            return Ok(None);
        }
        match fs::read_link(&end) {
            Ok(next) => end = folder_of(&end).join(next),
            Err(_) => return Ok(Some(end)),
        }
    }
    Err(io::Error::other("its symbolic links lead in a circle"))
}

pub fn folder_of(out: &Path) -> &Path {
    match out.parent() {
        Some(folder) if folder != Path::new("") => folder,
        _ => Path::new("."),
    }
}

/// Brings to the disk that a folder has a file. There are folders for which that cannot be asked, and then nothing can be done about it.
fn sync_folder(out: &Path) -> io::Result<()> {
    match File::open(folder_of(out)).and_then(|folder| folder.sync_all()) {
        Err(error) if matches!(error.kind(), ErrorKind::PermissionDenied | ErrorKind::InvalidInput | ErrorKind::Unsupported) => Ok(()),
        synced => synced,
    }
}

/// Why a file was not written, and what else could be named where something has its name already.
pub fn trouble(out: &OsStr, error: &io::Error, other: &str) -> Trouble {
    let shown = names::shown(out);
    match error.kind() {
        ErrorKind::AlreadyExists if Path::new(out).is_dir() => Trouble::new(shown, "it is a directory", "name a file in it"),
        ErrorKind::AlreadyExists => Trouble::new(shown, "it is there already", format!("name another {other}, or write over it with -f")),
        ErrorKind::StorageFull => Trouble::new(shown, "the disk is full", "make room and run it again"),
        _ => Trouble::writing(shown, error),
    }
}

#[cfg(test)]
mod tests {
    use super::{reserve, Temporary};
    use std::{
        env, fs,
        io::{ErrorKind, Write},
        process,
    };

    #[test]
    fn a_reserved_name_is_replaced_and_one_that_is_taken_is_not() {
        let folder = env::temp_dir().join(format!("marks-reserve-{}", process::id()));
        fs::create_dir(&folder).unwrap();
        let out = folder.join("out");
        let with = |bytes: &'static [u8]| Temporary::beside(&out, |file| file.write_all(bytes), None).unwrap();
        reserve(with(b"new"), &out).unwrap();
        let taken = reserve(with(b"newer"), &out).unwrap_err();
        assert_eq!((fs::read(&out).unwrap(), taken.kind()), (b"new".to_vec(), ErrorKind::AlreadyExists));
        assert_eq!(fs::read_dir(&folder).unwrap().count(), 1);
        fs::remove_dir_all(&folder).unwrap();
    }
}
