//! A file under a name of its own beside its place, which goes away unless it is put there.

use super::folder_of;
use std::{
    fs::{self, File, Metadata, OpenOptions},
    io::{self, ErrorKind},
    os::unix::fs::{fchown, MetadataExt},
    path::{Path, PathBuf},
    process,
};

pub struct Temporary {
    path: PathBuf,
}

impl Temporary {
    /// Such a file, brought to the disk. Where it is to replace another, it has its permissions before it has any bytes.
    pub fn beside(out: &Path, write: impl FnOnce(&mut File) -> io::Result<()>, old: Option<&Metadata>) -> io::Result<Temporary> {
        let (temporary, mut file) = Temporary::new(folder_of(out))?;
        if let Some(old) = old {
            take_after(&file, old)?;
        }
        write(&mut file)?;
        file.sync_all()?;
        Ok(temporary)
    }

    fn new(folder: &Path) -> io::Result<(Temporary, File)> {
        for number in 0.. {
            let path = folder.join(format!(".marks-{}-{number}", process::id()));
            match OpenOptions::new().write(true).create_new(true).open(&path) {
                Err(error) if error.kind() == ErrorKind::AlreadyExists => {}
                opened => return opened.map(|file| (Temporary { path }, file)),
            }
        }
        unreachable!("there are more numbers than files")
    }

    pub fn path(&self) -> &Path {
        &self.path
    }

    /// Gives it its name, in the place of what has it. Its own then goes away by itself.
    pub fn rename(self, out: &Path) -> io::Result<()> {
        fs::rename(&self.path, out)
    }
}

impl Drop for Temporary {
    fn drop(&mut self) {
        let _ = fs::remove_file(&self.path);
    }
}

/// The owner where that is another one and may be given, and the permissions.
fn take_after(file: &File, old: &Metadata) -> io::Result<()> {
    let own = file.metadata()?;
    if (own.uid(), own.gid()) != (old.uid(), old.gid()) {
        let _ = fchown(file, Some(old.uid()), Some(old.gid()));
    }
    file.set_permissions(old.permissions())
}
