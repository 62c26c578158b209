//! Files that are read, and files that are written whole or not at all.

use std::ffi::OsStr;
use std::fs::{self, File, OpenOptions, Permissions};
use std::io::{self, Read, Write};
use std::path::{Path, PathBuf};
use std::process;

use job_file::has_mark;
pub use system::Identity;
use system::{identity_of, new_file, standard_input, standard_output, Removed};

use crate::limits::MOST_BYTES;

/// The mode of a new file, of which the mask of the process takes something away.
const MODE: u32 = 0o666;
/// The mode of a file that its owner alone may read and write.
const OWN_MODE: u32 = 0o600;

/// What was read, and from which file.
pub struct Input {
    pub bytes: Vec<u8>,
    pub identity: Option<Identity>,
}

impl Input {
    /// Reads a file, or standard input for `-`.
    pub fn read(path: &OsStr) -> io::Result<Input> {
        let mut file = if path == "-" { standard_input()? } else { File::open(path)? };
        let identity = identity_of(&file)?;
        let mut bytes = Vec::new();
        // One byte too many shows that the file is too large, whatever its length.
        Read::take(&mut file, MOST_BYTES as u64 + 1).read_to_end(&mut bytes)?;
        Ok(Input { bytes, identity })
    }
}

/// The identity of the file that standard output goes to.
pub fn of_standard_output() -> io::Result<Option<Identity>> {
    identity_of(&standard_output()?)
}

/// Where something is to be written.
pub enum Output {
    /// A pipe or device, which is written to as it is.
    Stream(File),
    /// A file, with its folder in full, and what is there already.
    File { path: PathBuf, old: Option<Old> },
}

/// A file that an output replaces.
pub struct Old {
    identity: Option<Identity>,
    permissions: Permissions,
    is_job: bool,
}

impl Output {
    /// Finds the file behind a path, and leaves it as it is.
    pub fn at(path: &Path) -> io::Result<Output> {
        match OpenOptions::new().write(true).open(path) {
            Ok(file) => {
                let data = file.metadata()?;
                if !data.is_file() {
                    return Ok(Output::Stream(file));
                }
                let old = Old {
                    identity: identity_of(&file)?,
                    permissions: data.permissions(),
                    is_job: File::open(path).and_then(begins_with_mark).unwrap_or(false),
                };
                Ok(Output::File { path: fs::canonicalize(path)?, old: Some(old) })
            }
            // A link that leads nowhere is no new file.
            Err(error) if error.kind() == io::ErrorKind::NotFound && fs::symlink_metadata(path).is_err() => {
                let (Some(folder), Some(name)) = (path.parent(), path.file_name()) else {
                    return Err(error);
                };
                let folder = if folder.as_os_str().is_empty() { Path::new(".") } else { folder };
                Ok(Output::File { path: fs::canonicalize(folder)?.join(name), old: None })
            }
            Err(error) => Err(error),
        }
    }

    /// Whether it is one of the files that were read.
    pub fn is_one_of(&self, read: &[Identity]) -> bool {
        let identity = self.old().and_then(|old| old.identity);
        identity.is_some_and(|identity| read.contains(&identity))
    }

    /// Whether a file is there that is no job file.
    pub fn replaces_other_file(&self) -> bool {
        self.old().is_some_and(|old| !old.is_job)
    }

    /// Whether any file is there.
    pub fn replaces_file(&self) -> bool {
        self.old().is_some()
    }

    /// Whether what is written to the one replaces what is written to the other.
    pub fn replaces(&self, other: &Output) -> bool {
        matches!((self, other), (Output::File { path: one, .. }, Output::File { path: other, .. }) if one == other)
    }

    fn old(&self) -> Option<&Old> {
        match self {
            Output::File { old, .. } => old.as_ref(),
            Output::Stream(_) => None,
        }
    }

    /// Writes the bytes to a temporary file in the same folder, or to the pipe or device.
    pub fn write(self, bytes: &[u8]) -> io::Result<Written> {
        match self {
            Output::Stream(mut file) => file.write_all(bytes).map(|()| Written { temporary: None }),
            Output::File { path, old } => {
                let (mut file, temporary) = Temporary::beside(path, old.map(|old| old.permissions))?;
                file.write_all(bytes)?;
                file.sync_all()?;
                Ok(Written { temporary: Some(temporary) })
            }
        }
    }
}

/// Whether a file begins as a job file does.
fn begins_with_mark(file: File) -> io::Result<bool> {
    let mut beginning = Vec::new();
    file.take(3).read_to_end(&mut beginning)?;
    Ok(has_mark(&beginning))
}

/// What is written and not in its place yet.
pub struct Written {
    temporary: Option<Temporary>,
}

impl Written {
    /// Puts the written file in its place, in one step. A file that was not there when the output was found stays.
    pub fn put(self) -> io::Result<()> {
        let Some(temporary) = self.temporary else { return Ok(()) };
        if temporary.is_new && fs::symlink_metadata(&temporary.place).is_ok() {
            return Err(io::ErrorKind::AlreadyExists.into());
        }
        fs::rename(&temporary.path, &temporary.place)
    }
}

/// A file that is removed when it goes out of use; after the rename nothing has its name any more.
struct Temporary {
    path: PathBuf,
    /// Until then a signal removes it too.
    _removed: Option<Removed>,
    place: PathBuf,
    /// Whether no file was in its place.
    is_new: bool,
}

impl Temporary {
    /// An empty temporary file in the folder of this place, with the permissions of the file that is there: nobody may
    /// read it before who may not read it then.
    fn beside(place: PathBuf, permissions: Option<Permissions>) -> io::Result<(File, Temporary)> {
        let is_new = permissions.is_none();
        let mode = if is_new { MODE } else { OWN_MODE };
        let mut number = 0;
        loop {
            let path = place.with_file_name(format!(".parts-{}-{number}.tmp", process::id()));
            match new_file(&path, mode) {
                Ok((file, removed)) => {
                    let temporary = Temporary { path, _removed: removed, place, is_new };
                    permissions.map_or(Ok(()), |permissions| file.set_permissions(permissions))?;
                    return Ok((file, temporary));
                }
                Err(error) if error.kind() == io::ErrorKind::AlreadyExists => number += 1,
                Err(error) => return Err(error),
            }
        }
    }
}

impl Drop for Temporary {
    fn drop(&mut self) {
        // After the rename there is nothing to remove, and a failure is of no use to anyone.
        let _ = fs::remove_file(&self.path);
    }
}

#[cfg(test)]
mod tests {
    use std::os::unix::fs::PermissionsExt;

    use super::*;

    /// An empty folder of this name below the folder for temporary files.
    fn folder(name: &str) -> PathBuf {
        let folder = std::env::temp_dir().join(format!("parts-{}-{name}", process::id()));
        fs::create_dir(&folder).expect("making a folder");
        folder
    }

    fn names_in(folder: &Path) -> Vec<String> {
        let entries = fs::read_dir(folder).expect("reading the folder");
        let mut names: Vec<String> =
            entries.map(|entry| entry.expect("an entry").file_name().into_string().expect("a name")).collect();
        names.sort();
        names
    }

    fn output(folder: &Path, name: &str) -> Output {
        Output::at(&folder.join(name)).expect("an output")
    }

    #[test]
    fn file_has_its_old_bytes_until_it_is_put() {
        let folder = folder("put");
        fs::write(folder.join("out"), "old").unwrap();
        let written = output(&folder, "out").write(b"new").unwrap();
        assert_eq!(fs::read(folder.join("out")).unwrap(), b"old");
        assert_eq!(names_in(&folder).len(), 2);
        written.put().unwrap();
        assert_eq!(fs::read(folder.join("out")).unwrap(), b"new");
        assert_eq!(names_in(&folder), ["out"]);
        fs::remove_dir_all(folder).unwrap();
    }

    #[test]
    fn temporary_file_is_removed_when_nothing_is_put() {
        let folder = folder("dropped");
        drop(output(&folder, "out").write(b"new").unwrap());
        assert!(names_in(&folder).is_empty());
        // A file that came meanwhile is not replaced.
        let written = output(&folder, "out").write(b"new").unwrap();
        fs::write(folder.join("out"), "theirs").unwrap();
        assert_eq!(written.put().unwrap_err().kind(), io::ErrorKind::AlreadyExists);
        assert_eq!(fs::read(folder.join("out")).unwrap(), b"theirs");
        fs::remove_file(folder.join("out")).unwrap();
        fs::write(folder.join("out"), "old").unwrap();
        let written = output(&folder, "out").write(b"new").unwrap();
        // A folder in its place, so that the rename fails.
        fs::remove_file(folder.join("out")).unwrap();
        fs::create_dir(folder.join("out")).unwrap();
        assert!(written.put().is_err());
        assert_eq!(names_in(&folder), ["out"]);
        fs::remove_dir_all(folder).unwrap();
    }

    #[test]
    fn temporary_file_is_as_private_as_the_file_that_it_replaces() {
        let folder = folder("private");
        fs::write(folder.join("out"), "old").unwrap();
        fs::set_permissions(folder.join("out"), Permissions::from_mode(0o600)).unwrap();
        let written = output(&folder, "out").write(b"new").unwrap();
        for name in names_in(&folder) {
            assert_eq!(fs::metadata(folder.join(&name)).unwrap().permissions().mode() & 0o777, 0o600, "{name}");
        }
        written.put().unwrap();
        fs::remove_dir_all(folder).unwrap();
    }

    #[test]
    fn job_files_are_told_from_other_files() {
        let folder = folder("told");
        for (bytes, is_other) in [(&b"TIP\0\x01\x01\0\0"[..], false), (b"TI", true), (b"", true), (b"rack 1\n", true)] {
            fs::write(folder.join("out"), bytes).unwrap();
            assert_eq!(output(&folder, "out").replaces_other_file(), is_other, "{bytes:?}");
        }
        assert!(!output(&folder, "new").replaces_file());
        fs::remove_dir_all(folder).unwrap();
    }

    #[test]
    fn temporary_file_of_another_program_stays() {
        let folder = folder("taken");
        let taken = format!(".parts-{}-0.tmp", process::id());
        fs::write(folder.join(&taken), "theirs").unwrap();
        output(&folder, "out").write(b"new").unwrap().put().unwrap();
        assert_eq!(fs::read(folder.join(&taken)).unwrap(), b"theirs");
        assert_eq!(names_in(&folder), [taken.as_str(), "out"]);
        fs::remove_dir_all(folder).unwrap();
    }
}
