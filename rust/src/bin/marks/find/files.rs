//! The files to look in, one after the other: those that are named, and, where it is asked for, those in folders.

use crate::{names, trouble::Trouble};
use std::{
    ffi::OsString,
    fs::{self, DirEntry, FileType},
    io,
    path::{Path, PathBuf},
    vec,
};

pub struct Files {
    named: vec::IntoIter<OsString>,
    recursive: bool,
    /// The folders that were entered and not left, each with what of it is still to be taken.
    open: Vec<vec::IntoIter<Inside>>,
}

/// What is in a folder.
enum Inside {
    File(PathBuf),
    Folder(PathBuf),
    Unknown(Trouble),
}

impl Files {
    /// Where folders are looked in and none is named, it is the current one, whose name is not put before those in it.
    pub fn new(named: Vec<OsString>, recursive: bool) -> Files {
        let mut files = Files { named: Vec::new().into_iter(), recursive, open: Vec::new() };
        match named.is_empty() {
            true => files.open.push(inside(Path::new("."), Path::new("")).into_iter()),
            false => files.named = named.into_iter(),
        }
        files
    }

    fn next_inside(&mut self) -> Option<Result<OsString, Trouble>> {
        while let Some(folder) = self.open.last_mut() {
            match folder.next() {
                Some(Inside::File(path)) => return Some(Ok(path.into_os_string())),
                Some(Inside::Unknown(trouble)) => return Some(Err(trouble)),
                Some(Inside::Folder(path)) => self.open.push(inside(&path, &path).into_iter()),
                None => {
                    self.open.pop();
                }
            }
        }
        None
    }
}

impl Iterator for Files {
    type Item = Result<OsString, Trouble>;

    fn next(&mut self) -> Option<Result<OsString, Trouble>> {
        loop {
            if let Some(file) = self.next_inside() {
                return Some(file);
            }
            let name = self.named.next()?;
            if !self.recursive || names::is_standard(&name) || !Path::new(&name).is_dir() {
                return Some(Ok(name));
            }
            self.open.push(inside(Path::new(&name), Path::new(&name)).into_iter());
        }
    }
}

/// What is in a folder, by its names in the order of their bytes. Names begin with `front`.
fn inside(folder: &Path, front: &Path) -> Vec<Inside> {
    let unreadable = |error: &io::Error| Inside::Unknown(Trouble::opening(names::shown(folder.as_os_str()), error));
    let entries = match fs::read_dir(folder) {
        Ok(entries) => entries,
        Err(error) => return vec![unreadable(&error)],
    };
    let mut sorted = Vec::new();
    let mut broken = None;
    for entry in entries {
        match entry {
            Ok(entry) => sorted.push(entry),
            Err(error) => broken = Some(unreadable(&error)),
        }
    }
    sorted.sort_by_key(DirEntry::file_name);
    sorted.iter().filter_map(|entry| kind(entry, front)).chain(broken).collect()
}

/// Of what is in a folder, regular files and folders: links may lead anywhere, and reading a pipe or a device may never end.
fn kind(entry: &DirEntry, front: &Path) -> Option<Inside> {
    let path = front.join(entry.file_name());
    match entry.file_type() {
        Ok(kind) => of_kind(kind, path),
        Err(error) => Some(Inside::Unknown(Trouble::opening(names::shown(path.as_os_str()), &error))),
    }
}

fn of_kind(kind: FileType, path: PathBuf) -> Option<Inside> {
    match (kind.is_file(), kind.is_dir()) {
        (true, _) => Some(Inside::File(path)),
        (_, true) => Some(Inside::Folder(path)),
        _ => None,
    }
}
