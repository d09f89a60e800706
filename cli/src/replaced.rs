//! A file that is made whole or not at all: it is written beside its place and renamed.

use crate::trouble::Trouble;
use std::ffi::OsStr;
use std::fs::{self, File, OpenOptions, Permissions};
use std::io::{self, ErrorKind, Write};
use std::os::unix::fs::{OpenOptionsExt, PermissionsExt};
use std::path::{Path, PathBuf};

/// How many names are tried for what is written beside the place of a file. A run that was killed
/// may have left one.
const NAMES: u32 = 100;

/// Who may read, write and execute a file, of all that its mode has.
const PERMISSIONS: u32 = 0o777;

/// What a new file is asked to permit; the system takes away what the user does not want.
const NEW: u32 = 0o666;

/// What is written beside the place of a file. Unless it is renamed it is removed.
pub struct Replaced {
    path: PathBuf,
    renamed: bool,
}

impl Replaced {
    /// Makes a file of these bytes, in place of one that has its name, and with its permissions.
    pub fn write(name: &OsStr, bytes: &[u8]) -> Result<(), Trouble> {
        place_of(name)
            .and_then(|place| Replaced::make(&place, bytes))
            .map_err(|why| Trouble::new(format!("cannot write {name:?}: {why}")))
    }

    /// Makes a file at this place.
    fn make(place: &Path, bytes: &[u8]) -> io::Result<()> {
        let old = mode_of(place);
        let (mut beside, mut file) = Replaced::beside(place, old.unwrap_or(NEW))?;
        file.write_all(bytes)?;
        if let Some(mode) = old {
            permit(&file, mode)?;
        }
        file.sync_all()?;
        fs::rename(&beside.path, place)?;
        beside.renamed = true;
        Ok(())
    }

    /// A new file in the directory of this place, with a short name that nothing there has. It
    /// permits no more than this mode.
    fn beside(place: &Path, mode: u32) -> io::Result<(Replaced, File)> {
        let process = std::process::id();
        let mut options = OpenOptions::new();
        options.write(true).create_new(true).mode(mode);
        let mut number = 0;
        loop {
            let path = place.with_file_name(format!("embulgri.{process}.{number}.part"));
            let renamed = false;
            number += 1;
            match options.open(&path) {
                Ok(file) => return Ok((Replaced { path, renamed }, file)),
                Err(why) if why.kind() == ErrorKind::AlreadyExists && number < NAMES => {}
                Err(why) => return Err(why),
            }
        }
    }
}

/// The permissions of the file at a place, where there is one.
fn mode_of(place: &Path) -> Option<u32> {
    let told = fs::metadata(place).ok()?;
    Some(told.permissions().mode() & PERMISSIONS)
}

/// Lets a file have these permissions. Where it has them, nothing is asked of a file system that
/// may not know any.
fn permit(file: &File, mode: u32) -> io::Result<()> {
    if file.metadata()?.permissions().mode() & PERMISSIONS == mode {
        return Ok(());
    }
    file.set_permissions(Permissions::from_mode(mode))
}

/// Where a file with this name is, behind links, or is to be. What is there and is no file, as a
/// device or a pipe, must not be replaced by one.
fn place_of(name: &OsStr) -> io::Result<PathBuf> {
    match fs::canonicalize(name) {
        Ok(place) if place.is_file() => Ok(place),
        Ok(_) => Err(io::Error::new(ErrorKind::InvalidInput, "it is no file")),
        Err(why) if why.kind() == ErrorKind::NotFound => Ok(name.into()),
        Err(why) => Err(why),
    }
}

impl Drop for Replaced {
    fn drop(&mut self) {
        if !self.renamed {
            // Where that fails, the trouble that was met is told all the same.
            let _ = fs::remove_file(&self.path);
        }
    }
}
