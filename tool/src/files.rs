//! Files that are written whole or not at all.
use crate::show;
use crate::Failure;
use std::fs::{self, File, OpenOptions};
use std::io::{self, Write};
use std::os::unix::fs::MetadataExt;
use std::path::{Path, PathBuf};

/// A file that is written beside its place, and takes it by `commit`. Without that it leaves nothing.
pub struct Pending {
    path: PathBuf,
    /// The file beside, and the place; None where the place is a device or a pipe, which was written itself.
    beside: Option<(PathBuf, PathBuf)>,
}

fn failed(path: &Path, error: &io::Error) -> Failure {
    Failure::files(format!("cannot write {}: {}", show::path(path), show::reason(error)), path)
}

impl Pending {
    /// Writes what will stand at `path`.
    pub fn write(path: &Path, content: impl FnOnce(&mut dyn Write) -> io::Result<()>) -> Result<Pending, Failure> {
        Pending::try_write(path, content).map_err(|error| failed(path, &error))
    }

    fn try_write(path: &Path, content: impl FnOnce(&mut dyn Write) -> io::Result<()>) -> io::Result<Pending> {
        let there = match fs::metadata(path) {
            Ok(there) => Some(there),
            Err(error) if error.kind() == io::ErrorKind::NotFound => None,
            Err(error) => return Err(error),
        };
        if let Some(there) = &there {
            if there.is_dir() {
                return Err(io::Error::from(io::ErrorKind::IsADirectory));
            }
            if !there.is_file() {
                let mut file = OpenOptions::new().write(true).open(path)?;
                content(&mut file)?;
                return Ok(Pending { path: path.into(), beside: None });
            }
        }
        // a link stays, and what it leads to is written
        let place = if there.is_some() { fs::canonicalize(path)? } else { path.to_path_buf() };
        let (mut file, beside) = create_beside(&place)?;
        let pending = Pending { path: path.into(), beside: Some((beside.clone(), place)) };
        content(&mut file)?;
        if let Some(there) = there {
            fs::set_permissions(&beside, there.permissions())?;
        }
        // some systems tell only here that the disk is full
        file.sync_all()?;
        Ok(pending)
    }

    /// Puts the file in its place.
    pub fn commit(mut self) -> Result<(), Failure> {
        let Some((beside, place)) = self.beside.take() else { return Ok(()) };
        fs::rename(&beside, place).map_err(|error| {
            let _ = fs::remove_file(&beside);
            failed(&self.path, &error)
        })
    }
}

impl Drop for Pending {
    fn drop(&mut self) {
        if let Some((beside, _)) = &self.beside {
            let _ = fs::remove_file(beside);
        }
    }
}

fn create_beside(place: &Path) -> io::Result<(File, PathBuf)> {
    let mut tries = 0;
    loop {
        let beside = place.with_file_name(format!(".lugwormpin-{}-{tries}", std::process::id()));
        match OpenOptions::new().write(true).create_new(true).open(&beside) {
            Err(error) if error.kind() == io::ErrorKind::AlreadyExists && tries < 100 => tries += 1,
            Err(error) => return Err(error),
            Ok(file) => return Ok((file, beside)),
        }
    }
}

/// Whether two paths lead to one regular file, there already or to be written.
pub fn same(a: &Path, b: &Path) -> bool {
    match (fs::metadata(a), fs::metadata(b)) {
        (Ok(a), Ok(b)) => a.is_file() && (a.dev(), a.ino()) == (b.dev(), b.ino()),
        (Err(_), Err(_)) => match (resolved(a), resolved(b)) {
            (Some(a), Some(b)) => a == b,
            _ => a == b,
        },
        _ => false,
    }
}

/// The path of a file that is to be written, from the root.
fn resolved(path: &Path) -> Option<PathBuf> {
    let folder = match path.parent()? {
        folder if folder.as_os_str().is_empty() => Path::new("."),
        folder => folder,
    };
    Some(fs::canonicalize(folder).ok()?.join(path.file_name()?))
}
